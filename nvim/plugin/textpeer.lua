-- The commands of the plugin; what they do is loaded at the first one.
if vim.g.loaded_textpeer then
  return
end
vim.g.loaded_textpeer = true

local function command(name, call, options)
  vim.api.nvim_create_user_command(name, function(given)
    require('textpeer').command(call, given)
  end, options)
end

command('TextpeerOpen', 'open', { nargs = 1, bang = true, complete = 'file' })
command('TextpeerConnect', 'connect', { nargs = 1 })
command('TextpeerDisconnect', 'disconnect', { nargs = 0 })
command('TextpeerStatus', 'status', { nargs = 0 })

local group = vim.api.nvim_create_augroup('TextpeerFiles', {})

-- What Neovim reads and writes under a name `textpeer://FILE` the plugin does.
for event, call in pairs({ BufReadCmd = 'read', BufWriteCmd = 'write' }) do
  vim.api.nvim_create_autocmd(event, {
    group = group,
    pattern = 'textpeer://*',
    callback = function(given)
      require('textpeer')[call](given.buf, given.match)
    end,
  })
end

-- No command of Neovim's own writes a journal: an exception here ends the command, which an error of Lua doesn't.
local GUARD = [[execute luaeval("require('textpeer.journal').guard(_A)", expand('<amatch>'))]]
vim.api.nvim_create_autocmd({ 'BufWritePre', 'FileWritePre', 'FileAppendPre' }, { group = group, command = GUARD })

-- Before `:saveas` gives the buffer another name it tells of a buffer that has that name already.
vim.api.nvim_create_autocmd('BufFilePre', { group = group, command = "if expand('<abuf>') != bufnr() | " .. GUARD .. ' | endif' })

-- A journal that is read as a plain file.
vim.api.nvim_create_autocmd('BufReadPost', {
  group = group,
  callback = function(given)
    require('textpeer.journal').hint(given.buf)
  end,
})
