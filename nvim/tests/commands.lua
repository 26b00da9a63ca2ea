-- Neovim's own commands at a journal: what they write, whether they end Neovim, and what is said. It needs the engine's
-- library and the program `textpeer` ($TEXTPEER_PROGRAM), and exits 1 at a difference.
local here = debug.getinfo(1, 'S').source:sub(2):match('(.*)/')
package.path = here .. '/?.lua;' .. package.path
local Editor = require('editor')
local checks = require('checks')

local check, run, wait = checks.check, checks.run, checks.wait
-- Each editor has a folder of its own, in `root`.
local root = vim.fn.tempname()
local folder, folders = nil, 0
-- What each journal has at first.
local TEXT = 'one\ntwo\nthree'

local function put(name, bytes)
  local file = assert(io.open(folder .. '/' .. name, 'wb'))
  file:write(bytes)
  file:close()
end

-- The bytes of the file; nil where there is none.
local function got(name)
  local file = io.open(folder .. '/' .. name, 'rb')
  local bytes = file and file:read('*a')
  if file then
    file:close()
  end
  return bytes
end

local function journal_text()
  return table.concat(run('text', folder .. '/a.journal'), '\n')
end

-- A folder with a journal, and an editor in it that opened nothing yet.
local function editor_beside()
  folders = folders + 1
  folder = root .. '/' .. folders
  vim.fn.mkdir(folder, 'p')
  run('new', folder .. '/a.journal')
  run('edit', folder .. '/a.journal', '--at', '0', '--del', '0', '--text', TEXT)
  local editor = Editor.start()
  editor:command('cd ' .. folder)
  editor:command('set shortmess& hidden')
  return editor
end

-- An editor with the journal.
local function editor_of()
  local editor = editor_beside()
  editor:command('TextpeerOpen a.journal')
  return editor
end

-- Runs the command: what it says, or why it is refused.
local function says(editor, command)
  return editor:lua([[
    local _, said = pcall(vim.fn.execute, ...)
    return said
  ]], command)
end

-- That the command says this.
local function said(editor, command, wanted)
  local text = says(editor, command)
  check(text:find(wanted, 1, true), (':%s says %s, not %s'):format(command, vim.inspect(text), vim.inspect(wanted)))
end

-- That the plugin said this since the last time; '' where it said nothing.
local function told(editor, what, wanted)
  local text = editor:told()
  check(wanted == '' and text == '' or wanted ~= '' and text:find(wanted, 1, true),
    ('%s: told is %s, not %s'):format(what, vim.inspect(text), vim.inspect(wanted)))
end

-- That the file has these bytes, or isn't there.
local function has(name, wanted)
  local bytes = got(name)
  check(bytes == wanted, ('%s has %s, not %s'):format(name, vim.inspect(bytes), vim.inspect(wanted)))
end

-- That the buffer is "modified" or not, has the name, and the state line this word.
local function is(editor, what, modified, name, word)
  local now = editor:lua("return { vim.bo.modified, vim.fn.bufname(), require('textpeer').statusline() }")
  check(vim.deep_equal(now, { modified, name, word }), what .. ': ' .. vim.inspect(now))
end

-- Types the keys, and waits until they are taken.
local function type_at_once(editor, keys)
  editor:type(keys)
  editor:request('nvim_eval', '1')
end

-- The name of the buffer that shows the journal.
local function shared_name()
  return 'textpeer://' .. folder .. '/a.journal'
end

-- Other files are written as from a plain buffer, which stays shared.
local function write_elsewhere()
  local editor = editor_of()
  said(editor, 'w other.txt', '"other.txt" [New] 3L, 14B written')
  has('other.txt', 'one\ntwo\nthree\n')
  put('other.txt', 'kept')
  said(editor, 'w other.txt', 'E13:')
  has('other.txt', 'kept')
  said(editor, 'w! other.txt', '"other.txt" 3L, 14B written')
  has('other.txt', 'one\ntwo\nthree\n')
  said(editor, '%w all.txt', '"all.txt" [New] 3L, 14B written')
  has('all.txt', 'one\ntwo\nthree\n')
  said(editor, '2,3w some.txt', '"some.txt" [New] 2L, 10B written')
  has('some.txt', 'two\nthree\n')
  said(editor, 'w >> absent.txt', 'E212:')
  has('absent.txt', nil)
  said(editor, 'w! >> absent.txt', '"absent.txt" [New] 3L, 14B appended')
  said(editor, '2w >> absent.txt', '"absent.txt" 1L, 4B appended')
  has('absent.txt', 'one\ntwo\nthree\ntwo\n')
  editor:command('setlocal fileformat=dos nofixendofline noendofline')
  said(editor, 'w dos.txt', '"dos.txt" [New][noeol][dos] 3L, 15B written')
  has('dos.txt', 'one\r\ntwo\r\nthree')
  editor:command('setlocal fileformat=unix fixendofline endofline')
  said(editor, 'w absent/other.txt', 'E212:')
  said(editor, 'w! /dev/full', 'E514:')
  is(editor, 'after other files', false, shared_name(), 'alone')
  told(editor, 'after other files', '')
  says(editor, 'w textpeer://' .. folder .. '/b.journal')
  told(editor, 'another journal', 'b.journal is not written')
  editor:lua("vim.api.nvim_buf_set_lines(0, 0, 1, true, { 'typed' })")
  says(editor, 'w')
  is(editor, 'after its own name', false, shared_name(), 'alone')
  editor:lua("vim.api.nvim_buf_set_lines(0, -1, -1, true, { '' })")
  editor:command('setlocal nofixendofline noendofline')
  said(editor, 'w exact.txt', '"exact.txt" [New][noeol] 4L, 16B written')
  editor:quit()
  check(journal_text() == 'typed\ntwo\nthree\n', 'the journal after other files: ' .. journal_text())
  has('exact.txt', 'typed\ntwo\nthree\n')
end

-- `:saveas` goes on with a plain file; the journal has what was typed until then, and is free.
local function save_as()
  local editor = editor_of()
  put('kept.txt', 'kept')
  said(editor, 'saveas kept.txt', 'E13:')
  has('kept.txt', 'kept')
  editor:command('file ' .. shared_name())
  is(editor, 'saved as no other file', false, shared_name(), 'alone')
  editor:command('TextpeerConnect 127.0.0.1:1')
  wait('no server', function()
    return editor:state() == 'offline'
  end)
  told(editor, 'no server', 'no server at 127.0.0.1:1')
  editor:lua("_G.link = require('textpeer').of().link")
  editor:lua("vim.api.nvim_buf_set_lines(0, 0, 1, true, { 'typed' })")
  said(editor, 'saveas other.txt', '"other.txt" [New] 3L, 16B written')
  has('other.txt', 'typed\ntwo\nthree\n')
  is(editor, 'saved as another file', false, 'other.txt', '')
  check(editor:lua('return _G.link.closed'), 'the link of a buffer that was saved as another file')
  check(journal_text() == 'typed\ntwo\nthree', 'the journal as its buffer was saved as another file: ' .. journal_text())
  run('edit', folder .. '/a.journal', '--at', '0', '--del', '0', '--text', 'later ')
  type_at_once(editor, 'ggAx<Esc>')
  said(editor, 'w', '"other.txt" 3L, 17B written')
  has('other.txt', 'typedx\ntwo\nthree\n')
  type_at_once(editor, 'u')
  check(editor:text() == 'typed\ntwo\nthree', 'an undo of a plain file: ' .. editor:text())
  check(editor:lua('return vim.bo.swapfile'), 'a plain file has a swap file')
  editor:command('write')
  editor:command('buffer #')
  check(editor:text() == 'later typed\ntwo\nthree', 'the journal again: ' .. editor:text())
  is(editor, 'the journal again', false, shared_name(), 'alone')
  said(editor, 'saveas other.txt', 'E139:')
  is(editor, 'a file that another buffer has', false, shared_name(), 'alone')
  said(editor, 'saveas absent/other.txt', 'E212:')
  is(editor, 'a file that can not be written', true, 'absent/other.txt', '')
  editor:command('buffer ' .. shared_name())
  editor:command('file renamed.txt')
  is(editor, 'another name', true, 'renamed.txt', '')
  said(editor, 'w', '"renamed.txt" [New] 3L, 22B written')
  editor:command('file again.txt')
  is(editor, 'another name of a plain file', false, 'again.txt', '')
  told(editor, 'after :saveas', '')
  editor:quit()
end

-- A journal that can't be written: what was typed can be, elsewhere, as the message says.
local function full_disk()
  local editor = editor_of()
  editor:lua("require('textpeer').of().document.engine.edit = function() error('JournalFailed', 0) end")
  type_at_once(editor, 'Atyped<Esc>:q<CR>')
  told(editor, 'a full disk', 'save it by :saveas FILE')
  is(editor, 'a full disk', true, shared_name(), 'stopped')
  said(editor, 'q', 'E37:')
  says(editor, 'w')
  told(editor, 'its own name on a full disk', 'save it by :saveas FILE')
  says(editor, 'wq')
  told(editor, ':wq on a full disk', 'save it by :saveas FILE')
  said(editor, 'w other.txt', '"other.txt" [New] 3L, 19B written')
  has('other.txt', 'onetyped\ntwo\nthree\n')
  is(editor, 'a copy', true, shared_name(), 'stopped')
  said(editor, 'saveas! /dev/full', 'E514:')
  is(editor, 'a full disk, too', true, '/dev/full', '')
  said(editor, 'saveas saved.txt', '"saved.txt" [New] 3L, 19B written')
  has('saved.txt', 'onetyped\ntwo\nthree\n')
  editor:type(':q<CR>')
  check(editor:ends(), 'the end after :saveas')
  check(journal_text() == TEXT, 'the journal on a full disk: ' .. journal_text())
end

-- The end within the moment in which keys aren't in the journal yet.
local function quit_at_once()
  for _, keys in ipairs({ ':q<CR>', ':q!<CR>', ':qall<CR>', ':wq<CR>', ':wqall<CR>', ':x<CR>', ':exit<CR>', 'ZZ', 'ZQ' }) do
    local editor = editor_of()
    editor:type('x' .. keys)
    check(editor:ends(), 'x' .. keys .. ' ends Neovim')
    check(journal_text() == TEXT:sub(2), 'the journal after x' .. keys .. ': ' .. journal_text())
  end
  local editor = editor_of()
  editor:command('edit note.txt')
  editor:type(':buffer #<CR>x:buffer #<CR>:q<CR>')
  check(editor:ends(), ':q ends Neovim from beside a journal')
  check(journal_text() == TEXT:sub(2), 'the journal after :q beside it: ' .. journal_text())
end

-- Other commands that ask whether a buffer is modified, as a hand types them: the edit is made before they are typed out.
local function leave_at_once()
  for _, command in ipairs({ 'bdelete', 'edit', 'edit note.txt', 'enew' }) do
    local editor = editor_of()
    editor:command('set nohidden')
    editor:type('x:')
    wait('an edit before ' .. command, function()
      return editor:request('nvim_get_mode').mode == 'c' and not editor:lua('return vim.bo.modified')
    end, 3)
    editor:type(command .. '<CR>')
    wait('the end of ' .. command, function()
      return editor:request('nvim_get_mode').mode == 'n'
    end)
    check(editor:lua('return vim.v.errmsg') == '', 'x:' .. command .. ': ' .. editor:lua('return vim.v.errmsg'))
    editor:quit()
    check(journal_text() == TEXT:sub(2), 'the journal after x:' .. command .. ': ' .. journal_text())
  end
end

-- Damaged journals: the message says what helps, and they stay. In one a byte of the text is another, in one the length
-- of a record.
local function damaged_journals()
  local editor = editor_beside()
  local whole = got('a.journal')
  for _, place in ipairs({ #whole - 40, 26 }) do
    local bytes = whole:sub(1, place) .. string.char((whole:byte(place + 1) + 1) % 256) .. whole:sub(place + 2) .. whole:sub(25)
    put('b.journal', bytes)
    says(editor, 'TextpeerOpen b.journal')
    local text = editor:told()
    check(text:find('Damaged, `textpeer check` says what is damaged', 1, true), 'a journal damaged at ' .. place .. ': ' .. text)
    check(got('b.journal') == bytes, 'the journal damaged at ' .. place .. ' has changed')
  end
  editor:quit()
end

-- Files that are no journals: the message says how one is begun, and they stay.
local function no_journals()
  local editor = editor_beside()
  for _, bytes in ipairs({ 'short\n', ('a line of a note\n'):rep(9) }) do
    put('note.txt', bytes)
    for _, command in ipairs({ 'TextpeerOpen! note.txt', 'TextpeerOpen note.txt' }) do
      says(editor, command)
      local text = editor:told()
      check(text:find('note.txt: %a+, it is no journal; :TextpeerOpen! begins one in a file that is not there or is empty$'),
        command .. ' of a note: ' .. text)
      has('note.txt', bytes)
    end
  end
  local bytes = got('a.journal')
  says(editor, 'TextpeerOpen! a.journal')
  told(editor, 'a journal that is there', 'it has a document; :TextpeerOpen without ! opens it')
  has('a.journal', bytes)
  put('empty.txt', '')
  says(editor, 'TextpeerOpen! empty.txt')
  told(editor, 'an empty file', '')
  check(editor:lua("return require('textpeer').statusline()") == 'alone', 'an empty file becomes a journal')
  editor:command('0read note.txt')
  check(editor:engine() == got('note.txt'), 'a note in a new document: ' .. editor:engine())
  editor:quit()
end

-- A journal as a plain file: the message says once how it is opened, and works.
local function hint()
  local editor = editor_beside()
  local bytes = got('a.journal')
  put('b.journal', bytes)
  editor:command('vimgrep /one/j *.journal')
  check(#editor:request('nvim_eval', 'getqflist()') == 2, 'a search of journals')
  told(editor, 'a search of journals', '')
  editor:command('edit a.journal')
  told(editor, 'a journal as a plain file', 'this is a journal; :TextpeerOpen % shows its text')
  editor:command('edit')
  told(editor, 'read again', '')
  has('a.journal', bytes)
  check(not editor:lua('return vim.bo.modified'), 'a journal as a plain file is not modified')
  put('other.txt', 'RGAJRNL2 is none\n')
  editor:command('edit other.txt')
  told(editor, 'another file', '')
  editor:command('buffer a.journal')
  editor:command('TextpeerOpen %')
  check(editor:text() == TEXT, 'what the hint opens: ' .. editor:text())
  told(editor, 'the journal itself', '')
  editor:quit()
end

-- Tries to write a file by each of its names and each of Neovim's commands, from the current buffer. Each is refused, and says
-- so; the buffer keeps its name, and the file its bytes.
local function none_writes(editor, names, says_why)
  local name, modified = unpack(editor:lua('return { vim.fn.bufname(), vim.bo.modified }'))
  local bytes = got(names[1])
  local commands = { 'write!', 'write! ++ff=dos', '1write!', 'write >>', 'write! >>', '1write >>', 'saveas!', 'wq!', '1wq!' }
  -- These write a buffer that is modified.
  vim.list_extend(commands, modified and { 'update!', 'xit!', 'exit!' } or {})
  for _, other in ipairs(names) do
    for _, command in ipairs(commands) do
      said(editor, command .. ' ' .. vim.fn.fnameescape(other), says_why)
      has(names[1], bytes)
    end
  end
  local now = editor:lua('return vim.fn.bufname()')
  check(now == name, 'the name of a buffer that was not written: ' .. now .. ', not ' .. name)
end

-- The journal of an open buffer isn't written by Neovim's own commands, by any of its names, and from any buffer.
local function journals_in_use()
  local editor = editor_of()
  put('note.txt', 'note\n')
  vim.fn.mkdir(folder .. '/links')
  vim.loop.fs_link(folder .. '/a.journal', folder .. '/hard')
  vim.loop.fs_symlink('../a.journal', folder .. '/links/soft')
  vim.loop.fs_symlink('links', folder .. '/folder')
  local names = { 'a.journal', './links/../a.journal', folder .. '/a.journal', 'hard', 'links/soft', 'folder/soft' }
  local why = 'a.journal is the journal of an open buffer: write its text to another file'
  none_writes(editor, { 'a.journal' }, why)
  none_writes(editor, names, 'is the journal of an open buffer')
  editor:command('edit note.txt')
  type_at_once(editor, 'x')
  none_writes(editor, names, 'is the journal of an open buffer')
  -- Without a way to read it, it is known by its place alone.
  editor:lua("require('textpeer.journal').is_at = function() return false end")
  none_writes(editor, names, 'is the journal of an open buffer')
  editor:command('buffer textpeer')
  is(editor, 'a journal that nothing wrote', false, shared_name(), 'alone')
  type_at_once(editor, 'x')
  said(editor, 'TextpeerStatus', 'compared  buffer and engine have one text')
  -- Other files are written as before.
  said(editor, 'write! other.txt', 'written')
  has('other.txt', TEXT:sub(2) .. '\n')
  editor:command('buffer note.txt')
  said(editor, 'write!', 'written')
  has('note.txt', 'ote\n')
  told(editor, 'a journal that nothing wrote', '')
  editor:quit()
  check(journal_text() == TEXT:sub(2), 'the journal that nothing wrote: ' .. journal_text())
end

-- A journal that no buffer has open isn't written as a file either, nor one that was opened as a file, which is read-only.
local function journals_as_files()
  local editor = editor_beside()
  local bytes = got('a.journal')
  put("it's one", bytes)
  editor:command('edit a.journal')
  told(editor, 'a journal as a file', 'this is a journal; :TextpeerOpen % shows its text')
  check(editor:lua('return vim.bo.readonly'), 'a journal as a file is read-only')
  said(editor, 'write', 'E45:')
  local why = 'a.journal is a journal: write to another file; :TextpeerOpen shows its text'
  said(editor, 'write!', why)
  editor:command('setlocal noreadonly')
  type_at_once(editor, 'x')
  for _, command in ipairs({ 'write', 'write!', 'update', 'wall', 'xit', 'wq!', '1write!', 'write >>' }) do
    said(editor, command, why)
    has('a.journal', bytes)
  end
  editor:command('file other')
  none_writes(editor, { 'a.journal' }, why)
  none_writes(editor, { "it's one" }, "it's one is a journal: write to another file")
  editor:command('edit! a.journal')
  check(editor:lua('return vim.bo.readonly'), 'a journal that is read again is read-only')
  editor:command('edit note.txt')
  editor:command('bwipeout a.journal')
  editor:command('put =range(3)')
  none_writes(editor, { 'a.journal' }, why)
  none_writes(editor, { "it's one" }, "it's one is a journal: write to another file")
  -- What the person means all the same.
  said(editor, "noautocmd write! it's\\ one", 'written')
  has("it's one", '\n0\n1\n2\n')
  said(editor, "write! it's\\ one", 'written')
  editor:command("edit! it's\\ one")
  check(not editor:lua('return vim.bo.readonly'), 'a file that was a journal')
  editor:quit()
  has('a.journal', bytes)
end

-- A journal that is moved, removed or replaced: the message says so, and what was typed stays in view. Once it is back it is
-- opened again with all of it.
local function moved_journals()
  local editor = editor_of()
  local path, moved = folder .. '/a.journal', folder .. '/moved.journal'
  local function fails(what, act)
    act()
    wait(what, function()
      return editor:lua("return require('textpeer').statusline()") == 'stopped'
    end)
    local text = editor:told()
    check(text == 'textpeer: ' .. path .. " is no longer shared (JournalFailed, the journal can't be written any more, or was moved, removed, replaced or"
      .. ' cut). What you type stays in view and is kept nowhere: save it by :saveas FILE, or put the journal back or make room, and'
      .. ' :TextpeerOpen it again, which takes what you typed', what .. ': told is ' .. vim.inspect(text))
    said(editor, 'TextpeerStatus', 'stopped   JournalFailed, the journal')
    is(editor, what, true, shared_name(), 'stopped')
  end
  local function is_back(what, text)
    editor:command('TextpeerOpen a.journal')
    told(editor, what, '')
    is(editor, what, false, shared_name(), 'alone')
    check(editor:engine() == text and editor:text() == text, what .. ': ' .. vim.inspect(editor:text()))
  end
  local function typing(keys)
    return function()
      type_at_once(editor, keys)
    end
  end
  type_at_once(editor, 'Ax<Esc>')
  editor:engine()
  -- Nothing is typed: the first that asks is told.
  for _, command in ipairs({ 'write', 'TextpeerStatus' }) do
    os.rename(path, moved)
    fails(':' .. command .. ' of a journal that was moved', function()
      says(editor, command)
    end)
    os.rename(moved, path)
    is_back(':' .. command .. ' of a journal that is back', 'onex\ntwo\nthree')
  end
  os.rename(path, moved)
  fails('a journal that was moved, of which nothing is asked', function() end)
  os.rename(moved, path)
  is_back('a journal that is back, of which nothing was asked', 'onex\ntwo\nthree')
  os.rename(path, moved)
  fails('a journal that was moved', typing('Ay<Esc>'))
  type_at_once(editor, 'Az<Esc>')
  check(editor:text() == 'onexyz\ntwo\nthree', 'what was typed into a journal that was moved: ' .. editor:text())
  says(editor, 'TextpeerOpen a.journal')
  told(editor, 'a journal that is away', 'is not there')
  check(editor:text() == 'onexyz\ntwo\nthree', 'what was typed while the journal is away: ' .. editor:text())
  os.rename(moved, path)
  is_back('a journal that is back', 'onexyz\ntwo\nthree')
  -- Another file in its place stays as it is.
  put('other', 'other')
  vim.loop.fs_link(path, moved)
  os.rename(folder .. '/other', path)
  fails('a journal that was replaced', typing('A!<Esc>'))
  has('a.journal', 'other')
  os.rename(moved, path)
  is_back('a journal that is back in its place', 'onexyz!\ntwo\nthree')
  os.rename(path, moved)
  os.remove(moved)
  fails('a journal that was removed', typing('A?<Esc>'))
  has('a.journal', nil)
  said(editor, 'saveas saved.txt', 'written')
  has('saved.txt', 'onexyz!?\ntwo\nthree\n')
  editor:quit()
end

for _, part in ipairs({
  write_elsewhere, save_as, full_disk, quit_at_once, leave_at_once, damaged_journals, no_journals, hint, journals_in_use, journals_as_files,
  moved_journals,
}) do
  local ok, problem = pcall(part)
  check(ok, tostring(problem))
end
vim.fn.delete(root, 'rf')
checks.finish()
