-- Journals as files: how one is distinguished from other files, by the bytes that it begins with, and that Neovim's own
-- commands write none.
local say = require('textpeer.say')

local uv = vim.loop
local M = {}

local MAGIC = 'RGAJRNL1'

-- The file at the path, through links: its device, its number there and its type; nil where there is none.
local function stat_of(path)
  local stat = uv.fs_stat(path)
  return stat and { dev = stat.dev, ino = stat.ino, type = stat.type }
end

-- Whether the file begins as a journal does. What is no file, as a pipe, isn't read.
function M.is_at(path)
  local stat = stat_of(path)
  local file = stat and stat.type == 'file' and io.open(path, 'rb')
  local first = file and file:read(#MAGIC)
  if file then
    file:close()
  end
  return first == MAGIC
end

-- The files of journals that are open, each with its path, by what it is open for.
local opened = {}

-- The journal at the path is open from now on, or not any more.
function M.open(one, path)
  opened[one] = stat_of(path)
  if opened[one] then
    opened[one].path = path
  end
end

function M.close(one)
  opened[one] = nil
end

-- Whether the path leads to the file, by whichever name.
local function leads_to(path, file)
  local stat = stat_of(path)
  return stat ~= nil and stat.dev == file.dev and stat.ino == file.ino
end

-- Whether the path of a journal that is open still leads to it: whether it was neither moved nor removed nor replaced.
function M.is_there(one)
  local file = opened[one]
  return not file or leads_to(file.path, file)
end

-- Whether the path leads to a journal that is open.
local function is_open(path)
  for _, file in pairs(opened) do
    if leads_to(path, file) then
      return true
    end
  end
  return false
end

-- Why Neovim's own commands don't write the file at the path; nil where they may. A journal would become a plain text, and
-- its history be lost.
local function refusal_of(path)
  if is_open(path) then
    return 'is the journal of an open buffer: write its text to another file'
  end
  return M.is_at(path) and 'is a journal: write to another file; :TextpeerOpen shows its text' or nil
end

-- What Neovim executes before one of its own commands writes the file at the path: nothing, or what ends the command.
function M.guard(path)
  local refusal = refusal_of(path)
  return refusal and ("throw 'textpeer: %s %s'"):format(vim.fn.strtrans(path):gsub("'", "''"), refusal) or ''
end

-- Neovim read a file into the buffer as it is: where that is a journal, the buffer is read-only, and it is said how the
-- journal is opened. It is said once for each buffer, and not of one that no window shows, as while `:vimgrep` reads it.
function M.hint(buffer)
  local first = vim.api.nvim_buf_get_lines(buffer, 0, 1, true)[1]
  if first:sub(1, #MAGIC) ~= MAGIC then
    return
  end
  vim.bo[buffer].readonly = true
  if vim.fn.win_gettype() ~= 'autocmd' and not vim.b[buffer].textpeer_hinted then
    vim.b[buffer].textpeer_hinted = true
    say.note('this is a journal; :TextpeerOpen % shows its text')
  end
end

return M
