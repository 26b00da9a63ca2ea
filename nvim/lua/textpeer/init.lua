-- The plugin: documents by their buffers, and the commands.
local Document = require('textpeer.document')
local Link = require('textpeer.link')
local engine = require('textpeer.engine')
local journal = require('textpeer.journal')
local say = require('textpeer.say')

local M = {}

-- By buffer: { document, link }. By buffer whose text was unloaded: { path, address }, for `:edit`.
local shared, unloaded = {}, {}

local function hex(bytes)
  return (bytes:gsub('.', function(c)
    return ('%02x'):format(c:byte())
  end))
end

-- The buffer's document and link, if it has any.
function M.of(buffer)
  return shared[buffer == nil and vim.api.nvim_get_current_buf() or buffer]
end

-- After how long journals are looked at once more, in milliseconds.
local LOOK = 1000

-- Looks at the journals of all buffers while there are any, also while nothing is typed: one that isn't there any more ends the
-- sharing.
local looking

local function look_at_all()
  for _, one in pairs(shared) do
    one.document:look()
  end
end

local function begin_looking()
  if not looking then
    looking = vim.loop.new_timer()
    looking:start(LOOK, LOOK, vim.schedule_wrap(look_at_all))
  end
end

local function end_looking()
  if looking and not next(shared) then
    looking:close()
    looking = nil
  end
end

-- Ends the buffer's document, and its link.
local function release(buffer)
  local one = shared[buffer]
  if one then
    one.document:close()
    if one.link then
      one.link:close()
    end
    shared[buffer] = nil
    end_looking()
  end
end

-- The buffer is unloaded: its document ends.
local function unload(buffer)
  local one = shared[buffer]
  if one then
    unloaded[buffer] = { path = one.document.path, address = one.link and one.link.address }
    release(buffer)
  end
end

local NO_JOURNAL = 'it is no journal; :TextpeerOpen! begins one in a file that is not there or is empty'
local DAMAGED = '`textpeer check` says what is damaged, `textpeer recover` makes a journal of all that can be had'

-- Why a file isn't opened, for people.
local REASONS = {
  Busy = 'another has it open',
  NoHeader = NO_JOURNAL,
  BadMagic = NO_JOURNAL,
  Damaged = DAMAGED,
  Refused = DAMAGED,
  JournalNotEmpty = 'it has a document; :TextpeerOpen without ! opens it',
}

-- The name of the refusal of a file. Where a new document is begun the engine doesn't tell other files from journals.
local function refused(refusal, path)
  local name = tostring(refusal)
  return name == 'JournalNotEmpty' and not journal.is_at(path) and 'BadMagic' or name
end

-- The engine over the file.
local function opened(path, anew)
  if not anew and vim.fn.filereadable(path) == 0 then
    error(path .. ' is not there; :TextpeerOpen! begins a new document', 0)
  end
  local ok, handle = pcall(engine.open, path, anew)
  if not ok then
    local name = refused(handle, path)
    error(('%s: %s'):format(path, name) .. (REASONS[name] and ', ' .. REASONS[name] or ''), 0)
  end
  return handle
end

-- Shows the journal in the file in the buffer.
local function show(buffer, path, anew)
  local handle = opened(path, anew)
  local one = {}
  local before = shared[buffer] and vim.bo[buffer].modified and shared[buffer].document
  local calls = {
    edited = function()
      if one.link then
        one.link:edited()
      end
    end,
    is_there = function()
      return journal.is_there(one)
    end,
    closed = function()
      journal.close(one)
      if one.link then
        one.link:close()
      end
    end,
  }
  local ok, document = pcall(Document.new, buffer, handle, path, calls, before and before:texts() or nil)
  if not ok then
    handle:close()
    error(document, 0)
  end
  one.document = document
  shared[buffer] = one
  if not document.stopped then
    journal.open(one, path)
    begin_looking()
  end
end

local PREFIX = 'textpeer://'
local group = vim.api.nvim_create_augroup('Textpeer', {})

-- Neovim writes the buffer under a name `textpeer://FILE`. What was typed is in the journal already, but for the last
-- moment's. Files of other names Neovim writes itself.
function M.write(buffer, name)
  if name ~= vim.api.nvim_buf_get_name(buffer) then
    return say.error(name .. ' is not written; :TextpeerOpen! begins a journal')
  end
  local one = shared[buffer]
  if not one or one.document.stopped then
    return say.error('the buffer is not shared any more; save it by :saveas FILE')
  end
  one.document:check()
end

-- Undoes, or redoes, as often as the count says.
local function turn_back(again)
  local one = M.of()
  for _ = 1, one and vim.v.count1 or 0 do
    if not one.document:turn_back(again) then
      return vim.api.nvim_echo({ { again and 'Nothing of yours to redo' or 'Nothing of yours to undo' } }, false, {})
    end
  end
end

-- The keys of one's own edits, and whether they make them again.
local UNDO_KEYS = { u = false, ['<C-r>'] = true }

-- Maps them, and keeps that they are.
local function map_undo(buffer)
  vim.b[buffer].textpeer_undo_keys = true
  for key, again in pairs(UNDO_KEYS) do
    vim.keymap.set('n', key, function()
      turn_back(again)
    end, { buffer = buffer, desc = again and 'Redo of your own edits' or 'Undo of your own edits' })
  end
end

-- Makes them Neovim's own again, if they were mapped.
local function unmap_undo(buffer)
  if vim.b[buffer].textpeer_undo_keys then
    vim.b[buffer].textpeer_undo_keys = nil
    for key in pairs(UNDO_KEYS) do
      vim.keymap.del('n', key, { buffer = buffer })
    end
  end
end

-- Sets options of the buffer, by their names.
local function set_options(buffer, options)
  for option, value in pairs(options) do
    vim.bo[buffer][option] = value
  end
end

-- The buffer is a plain one from now on. Nothing of it is written yet. The journal has what was typed before.
local function become_plain(buffer)
  release(buffer)
  unmap_undo(buffer)
  vim.api.nvim_clear_autocmds({ group = group, buffer = buffer })
  set_options(buffer, { swapfile = vim.go.swapfile, modified = true })
end

-- Follows what Neovim does with the buffer.
local function watch(buffer)
  local name = vim.api.nvim_buf_get_name(buffer)
  local function on(events, call)
    vim.api.nvim_create_autocmd(events, {
      group = group,
      buffer = buffer,
      callback = function()
        call(buffer)
      end,
    })
  end
  -- Another name, as by `:saveas`, which writes next.
  on('BufFilePost', function()
    if vim.api.nvim_buf_get_name(buffer) ~= name then
      become_plain(buffer)
    end
  end)
  on('InsertLeave', function()
    if shared[buffer] then
      shared[buffer].document:leave_insert()
    end
  end)
  on({ 'BufUnload', 'BufWipeout' }, unload)
end

-- Makes the last moment's edits of all buffers, since Neovim asks next whether one is modified.
local function flush()
  for _, one in pairs(shared) do
    one.document:flush()
  end
end

vim.api.nvim_create_autocmd('QuitPre', { group = group, callback = flush })

-- Once a command line waits for a key: it is typed by hand, and neither a mapping's nor a macro's, which may have thousands.
vim.api.nvim_create_autocmd('CmdlineEnter', {
  group = group,
  pattern = ':',
  callback = vim.schedule_wrap(function()
    if vim.fn.getcmdtype() == ':' then
      flush()
    end
  end),
})

vim.api.nvim_create_autocmd('VimLeavePre', {
  group = group,
  callback = function()
    for _, buffer in ipairs(vim.tbl_keys(shared)) do
      release(buffer)
    end
  end,
})

-- Shows the journal in the buffer, which becomes one for it. Its 'buftype' stays empty: from an "acwrite" buffer Neovim 0.7
-- overwrites other files without being asked to.
local function begin(buffer, path, anew)
  set_options(buffer, { swapfile = false, buflisted = true, fileformat = 'unix' })
  show(buffer, path, anew)
  vim.api.nvim_clear_autocmds({ group = group, buffer = buffer })
  watch(buffer)
  if vim.g.textpeer_undo ~= false then
    map_undo(buffer)
  end
end

local opening = false

-- Opens the journal in a file in a buffer of its own. With `anew` it begins a new document there.
function M.open(path, anew)
  path = vim.fn.fnamemodify(vim.fn.expand(path), ':p')
  local buffer = vim.fn.bufadd(PREFIX .. path)
  local one = shared[buffer]
  if not one or one.document.stopped then
    vim.bo[buffer].swapfile = false
    opening = true
    vim.fn.bufload(buffer)
    opening = false
    begin(buffer, path, anew)
  end
  vim.api.nvim_set_current_buf(buffer)
  return buffer
end

-- Neovim reads a buffer named `textpeer://FILE`, as for `:edit`: a link that it had goes on.
function M.read(buffer, name)
  if opening then
    return
  end
  M.attempt('open', function()
    local was = unloaded[buffer] or {}
    begin(buffer, was.path or name:sub(#PREFIX + 1), false)
    if was.address then
      M.connect(was.address, buffer)
    end
  end)
end

-- Exchanges the buffer's changes with the server at the address, from now on.
function M.connect(address, buffer)
  local one = M.of(buffer)
  if not one or one.document.stopped then
    error('this buffer has no journal: :TextpeerOpen FILE opens one', 0)
  end
  if not Link.parse(address) then
    error(address .. ' is no address, as 127.0.0.1:7000 is one', 0)
  end
  M.disconnect(buffer)
  one.link = Link.new(one.document, address)
end

function M.disconnect(buffer)
  local one = M.of(buffer)
  if one and one.link then
    one.link:close()
    one.link = nil
  end
end

-- What there is to know of the buffer: lines for people.
function M.status(buffer)
  local one = M.of(buffer)
  if not one then
    return { 'this buffer has no journal' }
  end
  local document, link = one.document, one.link
  local lines = { 'journal   ' .. vim.fn.fnamemodify(document.path, ':~:.') }
  document:flush()
  if not document:look() then
    lines[#lines + 1] = 'stopped   ' .. document:reason()
    return lines
  end
  lines[#lines + 1] = 'document  ' .. hex(document.engine:id())
  lines[#lines + 1] = ('changes   %d; %d came since it was opened'):format(document.engine:change_count(), document.entered)
  for _, head in ipairs(document.engine:heads()) do
    lines[#lines + 1] = 'head      ' .. hex(head):sub(1, 16) .. '..'
  end
  lines[#lines + 1] = link
      and ('server    %s, %s%s'):format(link.address, link.state, link.problem and ': ' .. link.problem or '')
    or 'server    none'
  lines[#lines + 1] = document.mended == 0 and 'compared  buffer and engine have one text'
    or ('compared  mended %d times'):format(document.mended)
  return lines
end

-- A word for the status line: the state of the link, `stopped`, or nothing.
function M.statusline()
  local one = M.of()
  if not one then
    return ''
  end
  return one.document.stopped and 'stopped' or one.link and one.link.state or 'alone'
end

local commands = {
  open = function(given)
    M.open(given.args, given.bang)
  end,
  connect = function(given)
    M.connect(given.args)
  end,
  disconnect = function()
    M.disconnect()
  end,
  status = function()
    print(table.concat(M.status(), '\n'))
  end,
}

-- Calls it; a refusal is shown in one line.
function M.attempt(name, call)
  local ok, problem = pcall(call)
  if not ok then
    say.error(name .. ': ' .. tostring(problem))
  end
end

-- Runs a command of the plugin.
function M.command(name, given)
  M.attempt(name, function()
    commands[name](given)
  end)
end

return M
