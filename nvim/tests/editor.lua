-- An editor: Neovim in a process of its own, without a screen, with the plugin.
local here = debug.getinfo(1, 'S').source:sub(2):match('(.*)/')
local plugin = vim.fn.fnamemodify(here .. '/..', ':p')

local Editor = {}
Editor.__index = Editor

-- Starts one, that keeps what the plugin tells.
function Editor.start()
  local self = setmetatable({}, Editor)
  self.channel = vim.fn.jobstart({ vim.v.progpath, '--embed', '--headless', '-n', '-u', 'NONE', '-i', 'NONE', '--cmd', 'set rtp^=' .. plugin,
    '--cmd', 'runtime plugin/textpeer.lua' }, { rpc = true })
  self:lua([[
    _G.told = {}
    vim.notify = function(text, level) table.insert(_G.told, { text, level }) end
    vim.o.shortmess = 'filnxtToOFIWac'
  ]])
  return self
end

function Editor:request(...)
  return vim.fn.rpcrequest(self.channel, ...)
end

function Editor:lua(code, ...)
  return self:request('nvim_exec_lua', code, { ... })
end

function Editor:command(text)
  self:request('nvim_command', text)
end

function Editor:type(keys)
  self:request('nvim_input', keys)
end

function Editor:text()
  return table.concat(self:request('nvim_buf_get_lines', 0, 0, -1, true), '\n')
end

function Editor:state()
  return self:lua("local one = require('textpeer').of() return one.link and one.link.state or 'none'")
end

-- What the engine has: its text, and its heads in hexadecimal.
function Editor:engine()
  return unpack(self:lua([[
    local document = require('textpeer').of().document
    document:flush()
    local heads = {}
    for i, head in ipairs(document.engine:heads()) do
      heads[i] = head:gsub('.', function(c) return ('%02x'):format(c:byte()) end)
    end
    return { document.engine:text(), table.concat(heads, '\n') }
  ]]))
end

-- What the plugin said since the last time, as one text.
function Editor:told()
  return self:lua([[
    local texts = {}
    for i, one in ipairs(_G.told) do
      texts[i] = one[1]
    end
    _G.told = {}
    return table.concat(texts, '\n')
  ]])
end

-- Whether it ends by itself soon; it is ended then.
function Editor:ends()
  local status = vim.fn.jobwait({ self.channel }, 5000)[1]
  vim.fn.jobstop(self.channel)
  return status == 0
end

function Editor:quit()
  vim.fn.rpcnotify(self.channel, 'nvim_command', 'qall!')
  vim.fn.jobwait({ self.channel }, 5000)
end

return Editor
