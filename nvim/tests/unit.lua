-- Tests of the parts and of a buffer over the stand-in, in one Neovim: random texts, random commands. Prints what it did;
-- exits 1 at a difference.
local here = debug.getinfo(1, 'S').source:sub(2):match('(.*)/')
package.path = here .. '/?.lua;' .. package.path
local Fake = require('fake')
local Lines = require('textpeer.lines')
local Spans = require('textpeer.spans')
local Undo = require('textpeer.undo')
local checks = require('checks')
local pieces_of = require('textpeer.pieces')
local utf8 = require('textpeer.utf8')
local Document = require('textpeer.document')

local api = vim.api
local seed = tonumber(vim.env.TEXTPEER_SEED or '1')
math.randomseed(seed)
local random = math.random

local check = checks.check

local told = {}
vim.notify = function(text)
  told[#told + 1] = text
end

-- UTF-8: what is replaced, by hand.
for _, row in ipairs({
  { 'abc', 'abc' },
  { 'ä€😀', 'ä€😀' },
  { 'a\255b', 'a\239\191\189b' },
  { '\195', '\239\191\189' },
  { '\195\164\195', 'ä\239\191\189' },
  { '\237\160\128', ('\239\191\189'):rep(3) },
  { '\192\128', ('\239\191\189'):rep(2) },
  { '\244\144\128\128', ('\239\191\189'):rep(4) },
  { '\224\159\191', ('\239\191\189'):rep(3) },
  { '\240\159\152', ('\239\191\189'):rep(3) },
  { '\0\1\127', '\0\1\127' },
  { '\164x', '\239\191\189x' },
}) do
  check(utf8.clean(row[1]) == row[2], 'clean ' .. vim.inspect(row[1]))
end
check(utf8.count('aä€😀') == 4 and utf8.bytes('aä€😀', 3) == 6 and utf8.bytes('aä', 9) == 3, 'counts')

local CHARS = { 'a', 'b', 'c', ' ', '\n', '\n', 'ä', '€', '😀', 'e\204\129', '\t', '.', 'X', '\0', '\r' }
local function text_of(most)
  local parts = {}
  for i = 1, random(0, most) do
    parts[i] = CHARS[random(#CHARS)]
  end
  return table.concat(parts)
end

-- Pieces make one text of another; places by characters and by bytes agree.
for _ = 1, 3000 do
  local old, new = text_of(40), text_of(40)
  if random(2) == 1 then
    local from = utf8.bytes(old, random(0, utf8.count(old)))
    new = old:sub(1, from) .. text_of(5) .. old:sub(from + 1)
  end
  local pieces = pieces_of.between(old, new)
  check(pieces_of.applied(pieces, old) == new, 'pieces of ' .. vim.inspect({ old, new, pieces }))
  for i = 2, #pieces do
    check(pieces[i].from > pieces[i - 1].to, 'pieces that touch of ' .. vim.inspect({ old, new, pieces }))
  end
  local lines = Lines.of(Lines.split(old))
  local at = random(0, utf8.count(old))
  local row, column = lines:place_of_char(at)
  check(lines:char_of(row, column) == at, 'a place of ' .. vim.inspect({ old, at }))
  local byte_row, byte_column = lines:place_of_byte(utf8.bytes(old, at))
  check(byte_row == row and byte_column == column, 'a place by bytes of ' .. vim.inspect({ old, at }))
end

-- Spans of random replacements say where the texts are the same.
for _ = 1, 3000 do
  local old = text_of(30)
  local now, spans = old, Spans.new()
  for _ = 1, random(1, 6) do
    local at = random(0, #now)
    local removed, new = random(0, math.min(6, #now - at)), text_of(4)
    now = now:sub(1, at) .. new .. now:sub(at + removed + 1)
    spans:add(at, removed, #new)
  end
  local parts, at, rising = {}, 0, true
  local list, growth = spans:list(), 0
  for i, span in ipairs(list) do
    rising = rising and (i == 1 or span.os > at) and span.ns == span.os + growth and span.os <= span.oe and span.ns <= span.ne
    parts[#parts + 1] = old:sub(at + 1, span.os) .. now:sub(span.ns + 1, span.ne)
    at, growth = span.oe, span.ne - span.oe
  end
  parts[#parts + 1] = old:sub(at + 1)
  check(rising and spans:growth() == growth and table.concat(parts) == now, 'spans of ' .. vim.inspect({ old, now, list }))
end

-- A buffer over the stand-in.
local function buffer_of(text)
  vim.cmd('silent! enew!')
  local buffer = api.nvim_get_current_buf()
  local fake = Fake.new(text)
  return Document.new(buffer, fake, 'a stand-in', {}), fake, buffer
end

local function text_of_buffer(buffer)
  return table.concat(api.nvim_buf_get_lines(buffer, 0, -1, true), '\n')
end

local function keys(text)
  local ok, problem = pcall(api.nvim_feedkeys, api.nvim_replace_termcodes(text, true, false, true), 'x', false)
  return ok, problem
end

local COMMANDS = {
  'ix<Esc>', 'iä€<Esc>', 'a😀<Esc>', 'Aend<Esc>', 'Istart<Esc>', 'onew<Esc>', 'Onew<Esc>', 'i<CR><Esc>', 'a<CR>b<CR><Esc>', 'x', 'X',
  'dd', '2dd', 'dG', 'dgg', 'dw', 'db', 'D', 'C<Esc>', 'ccq<Esc>', 'sz<Esc>', 'rö', 'Rxy<Esc>', 'Rxyz<BS><BS><Esc>', 'yyp', 'yyP', 'ywP',
  'p', 'P', '3p', 'J', '3J', 'gJ', '~', 'g~~', 'gUU', 'guu', '>>', '<<', '==', 'gqq', 'gqG', 'u', 'u', 'u', '<C-r>', '<C-r>', 'U', '.', '.',
  '<C-a>', '<C-x>', '<C-v>jlx', '<C-v>jlIq<Esc>', '<C-v>j$Aq<Esc>', '<C-v>jlcw<Esc>', '<C-v>jly$p', 'Vjd', 'vjd', 'viwd', 'Vy3P', 'vGrZ',
  ':%s/a/bb/ge<CR>', ':%s/b//ge<CR>', ':%s/ä/x/ge<CR>', ':%s/x/€y/ge<CR>', ':%s/\\n//e<CR>', ':s/\\n/-/e<CR>', ':%s/ /\\r/ge<CR>',
  ':%s/^/> /e<CR>', ':%s/$/;/e<CR>', ':%s/\\s\\+$//e<CR>', ':%s/a\\nb/Q/e<CR>', ':%s/c/\\0\\r\\0/ge<CR>', ':%s/\\v(.)(.)/\\2\\1/ge<CR>',
  ':g/a/d<CR>', ':g/b/m0<CR>', ':g/x/t.<CR>', ':v/a/s/$/!/<CR>', ':g/^$/d<CR>', ':m0<CR>', ':m$<CR>', ':t0<CR>', ':t$<CR>', ':1,2m$<CR>',
  ':sort<CR>', ':sort!<CR>', ':sort u<CR>', ':%!sort<CR>', ':%!cat -n<CR>', ':.!echo hi<CR>', ':r !echo read<CR>', ':0r !echo first<CR>',
  ':$r !printf "a\\nb"<CR>', ':d<CR>', ':%d<CR>', ':1,2j<CR>', ':%j!<CR>', ':left 2<CR>', ':center 20<CR>', ':right 20<CR>',
  ':retab!<CR>', ':norm Aq<CR>', ':%norm Iw<CR>', ':%norm x<CR>', ':>><CR>', ':copy .<CR>', ':put =\'put\'<CR>', ':put! =[1,2]<CR>',
  ':call setline(1, "set")<CR>', ':call append("$", ["x", "y"])<CR>', ':call append(0, "top")<CR>', ':call deletebufline("%", 1, 2)<CR>',
  ':undo 0<CR>', ':earlier 3<CR>', ':later 3<CR>', 'gg', 'G', 'j', 'k', 'w', 'b', '$', '0', 'l', 'h', 'qaxq@a', 'ihello<C-w>x<Esc>', 'ihello<C-u>x<Esc>',
  'a<C-v>u20ac<Esc>', 'a<C-k>a:<Esc>', 'ia<C-o>x<Esc>', 'i<Del><Esc>', 'i<BS><Esc>', 'gi<C-t>x<Esc>', 'i<C-e><C-y><Esc>', 'xp', 'ddp', 'dap', 'yapP', 'das', 'ci(<Esc>',
  ':s/\\%V.*/X/e<CR>', 'a\195\164\226\130\172<Esc>', ':let @a="p\\nq"<CR>"ap', ':let @a="line\\n"<CR>"ap', ':call setreg("b",["aa","b","ccc"],"b")<CR>"bp', '"bP', 'gp', ']p', 'g??', 'g&', '&',
}

-- Random commands: after each few of them the engine has the buffer's text. `mended` counts how often the events misled.
local commands, compared = 0, 0
local compare = Document.compare
Document.compare = function(self, lines)
  local differed = compare(self, lines)
  compared = compared + (differed and 1 or 0)
  return differed
end
local misled = {}
local rounds = tonumber(vim.env.TEXTPEER_ROUNDS or '150')
for round = 1, rounds do
  local document, fake, buffer = buffer_of(text_of(60))
  vim.o.autoindent, vim.o.textwidth, vim.o.expandtab = random(2) == 1, random(3) == 1 and 10 or 0, random(2) == 1
  local done = {}
  for _ = 1, 40 do
    local command = COMMANDS[random(#COMMANDS)]
    done[#done + 1] = command
    local before = compared
    keys(command)
    commands = commands + 1
    if random(3) > 1 then
      document:flush()
      if not check(fake:text() == text_of_buffer(buffer) and not document.stopped,
        'round ' .. round .. ' after ' .. vim.inspect(done)) then
        break
      end
      if compared > before then
        misled[table.concat(done, ' ')] = true
      end
      done = {}
    end
  end
  document:check()
  check(document.mended == 0, 'round ' .. round .. ' was mended')
  document:close()
end

-- What comes to a document is shown without reading its text or the buffer's.
local function receive(document, fake)
  local read = api.nvim_buf_get_lines
  document:flush()
  fake.text = function()
    error('the engine\'s text is read', 0)
  end
  api.nvim_buf_get_lines = function()
    error('the buffer is read', 0)
  end
  document:receive('')
  fake.text, api.nvim_buf_get_lines = nil, read
  check(not document.stopped, 'what comes: ' .. tostring(document.stopped))
end

-- Others' edits come between: both texts agree, cursors keep their characters, and so do marks within the text: only
-- what came or went is changed.
local arrivals, cursors, marks = 0, 0, 0
local namespace = api.nvim_create_namespace('textpeer-test')
for round = 1, rounds do
  local document, fake, buffer = buffer_of(text_of(60))
  vim.cmd('silent! only | split')
  local other = vim.fn.win_getid(2)
  for _ = 1, 20 do
    keys(COMMANDS[random(#COMMANDS)])
    document:flush()
    if api.nvim_buf_is_valid(buffer) and api.nvim_get_current_buf() == buffer then
      local windows = {}
      for _, window in ipairs(vim.fn.win_findbuf(buffer)) do
        local row = random(1, api.nvim_buf_line_count(buffer))
        local line = document.shown.list[row]
        local column = utf8.bytes(line, random(0, math.max(0, utf8.count(line) - 1)))
        api.nvim_win_set_cursor(window, { row, column })
        windows[window] = fake.chars[document.shown:char_of(row - 1, column) + 1]
      end
      local marked = {}
      for i = 1, #fake.chars do
        local row, column = document.shown:place_of_char(i - 1)
        marked[api.nvim_buf_set_extmark(buffer, namespace, row, column, {})] = fake.chars[i]
      end
      for _ = 1, random(1, 3) do
        fake.coming[#fake.coming + 1] = function()
          local at = random(0, #fake.chars)
          fake:splice(at, random(0, math.min(5, #fake.chars - at)), text_of(6))
        end
      end
      receive(document, fake)
      arrivals = arrivals + 1
      if not check(fake:text() == text_of_buffer(buffer), 'round ' .. round .. ': an arrival') then
        break
      end
      for mark, char in pairs(marked) do
        if not fake.gone[char] then
          local row, column = unpack(api.nvim_buf_get_extmark_by_id(buffer, namespace, mark, {}))
          marks = marks + 1
          check(fake.chars[document.shown:char_of(row, column) + 1] == char, 'round ' .. round .. ': a mark left its character')
        end
      end
      api.nvim_buf_clear_namespace(buffer, namespace, 0, -1)
      for window, char in pairs(windows) do
        if api.nvim_win_is_valid(window) and not fake.gone[char] then
          local place = api.nvim_win_get_cursor(window)
          local now = fake.chars[document.shown:char_of(place[1] - 1, place[2]) + 1]
          cursors = cursors + 1
          -- A cursor in normal mode can't be on a newline, but for an empty line.
          check(now == char or char.char == '\n', 'round ' .. round .. ': a cursor left its character')
        end
      end
    end
  end
  document:close()
end

-- One's own edits are undone, and made again; others' stay.
local undone = 0
for round = 1, rounds do
  local first = text_of(60)
  local document, fake, buffer = buffer_of(first)
  local others = 0
  for _ = 1, 12 do
    keys(COMMANDS[random(#COMMANDS)])
    if api.nvim_get_current_buf() ~= buffer then
      break
    end
    document:flush()
    if round % 2 == 0 then
      fake.coming[1] = function()
        others = others + 1
        fake:splice(random(0, #fake.chars), 0, '\240\159\166\146')
      end
      document:receive('')
    end
  end
  local function without_others(text)
    local rest, count = text:gsub('\240\159\166\146', '')
    return rest, count
  end
  local last = fake:text()
  local groups = #document.history.done
  for _ = 1, 2 do
    local turns = 0
    while document:turn_back(false) do
      turns = turns + 1
    end
    undone = undone + turns
    local rest, count = without_others(fake:text())
    check(turns == groups and rest == first, 'round ' .. round .. ': all is undone: ' .. vim.inspect({ first, rest }))
    -- Others' characters that were deleted here come again.
    check(count == others, 'round ' .. round .. ': others\' characters after an undo: ' .. count .. ' of ' .. others)
    check(fake:text() == text_of_buffer(buffer), 'round ' .. round .. ': the buffer after an undo')
    for _ = 1, turns do
      document:turn_back(true)
    end
    check(without_others(fake:text()) == without_others(last), 'round ' .. round .. ': all is done again')
    check(fake:text() == text_of_buffer(buffer), 'round ' .. round .. ': the buffer after a redo')
  end
  document:check()
  check(document.mended == 0 and not document.stopped, 'round ' .. round .. ' was mended after an undo')
  document:close()
end

vim.o.autoindent, vim.o.textwidth, vim.o.expandtab = false, 0, false

-- Groups of several changes of many pieces, as of insert mode, are undone and made again whole; others' characters stay.
for round = 1, 4 * rounds do
  local first = text_of(30)
  local fake = Fake.new(first)
  local history = Undo.new(fake)
  local groups = random(1, 3)
  local others = 0
  for _ = 1, groups do
    for change = 1, random(1, 4) do
      -- They don't touch.
      local pieces, at = {}, -1
      for _ = 1, random(1, 5) do
        at = at + random(1, 4)
        local count, text = random(0, 3), text_of(3)
        if at + count <= #fake.chars and count + #text > 0 then
          local old = {}
          for i = 1, count do
            old[i] = fake.chars[at + i].char
          end
          pieces[#pieces + 1] = { at = at, count = count, old = table.concat(old), added = utf8.count(text), text = text }
          at = at + count
        end
      end
      local expected, from = {}, 0
      for _, piece in ipairs(pieces) do
        for i = from + 1, piece.at do
          expected[#expected + 1] = fake.chars[i].char
        end
        expected[#expected + 1] = piece.text
        from = piece.at + piece.count
      end
      for i = from + 1, #fake.chars do
        expected[#expected + 1] = fake.chars[i].char
      end
      history:begin(change > 1)
      if #pieces > 0 then
        history:make(pieces)
      end
      check(fake:text() == table.concat(expected), 'round ' .. round .. ': pieces')
      if round % 2 == 0 then
        others = others + 1
        fake:splice(random(0, #fake.chars), 0, '\240\159\166\146')
      end
    end
    history:finish()
  end
  local function without(text)
    return (text:gsub('\240\159\166\146', ''))
  end
  local last, made = without(fake:text()), #history.done
  for _ = 1, 2 do
    for _ = 1, made do
      history:undo(function() end)
    end
    local _, count = fake:text():gsub('\240\159\166\146', '')
    check(without(fake:text()) == first and count >= others, 'round ' .. round .. ': groups that are undone: ' .. vim.inspect({ first, without(fake:text()), count, others }))
    check(history:undo(function() end) == nil, 'round ' .. round .. ': nothing more to undo')
    for _ = 1, made do
      history:redo(function() end)
    end
    check(without(fake:text()) == last, 'round ' .. round .. ': groups that are made again: ' .. fake:text())
  end
end

-- Somebody deletes 2,000 characters meanwhile: none of them comes back, and what was typed among them stays, as one's own to
-- undo and to make again.
do
  local document, fake, buffer = buffer_of('begin\n' .. ('0123456789abcdefghi\n'):rep(100) .. 'end')
  vim.bo.fixendofline, vim.bo.endofline = false, false
  local mine = {}
  local function is(text, what)
    check(fake:text() == text and text_of_buffer(buffer) == text, what .. ': ' .. vim.inspect({ fake:text(), text_of_buffer(buffer) }))
  end
  keys('51Gi€mine\n<Esc>')
  keys('Go!<Esc>')
  document:flush()
  for i = 1, #fake.chars do
    if fake.chars[i].char == '€' then
      mine[1] = i - 1
    end
  end
  fake.coming = {
    function()
      fake:splice(mine[1] + 6, 2006 - mine[1], '')
      fake:splice(6, mine[1] - 6, '')
    end,
  }
  receive(document, fake)
  is('begin\n€mine\nend\n!', 'what is left')
  document:turn_back(false)
  is('begin\nend', 'the undo')
  document:turn_back(true)
  is('begin\n€mine\nend\n!', 'the redo')
  check(document:check() and document.mended == 0, 'it was mended')
  document:close()
end

-- Very many places of one line: the buffer is given them as one, and has the text.
do
  local document, fake, buffer = buffer_of(('aä'):rep(300))
  fake.coming[1] = function()
    for i = 0, 299 do
      fake:splice(2 * i, 1, i % 3 == 0 and '' or '€')
      fake:splice(2 * i, 0, i % 3 == 0 and 'b' or '')
    end
  end
  receive(document, fake)
  check(fake:text() == ('bä€ä€ä'):rep(100) and text_of_buffer(buffer) == fake:text(), 'very many places of one line')
  document:close()
end

-- An undo and a redo beside what others did in the places of one command: by hand. Each is one change.
for _, row in ipairs({
  -- What is between two places is deleted.
  { 'one two three', ':s/o/0/g<CR>', { 1, 5, '' }, '00 three', 'oo three' },
  -- A place is deleted whole, with the characters around it: what the undo brings back is there.
  { 'one two three', ':s/two/2/<CR>', { 3, 3, '' }, 'onethree', 'onetwothree' },
  -- Something is written within what was inserted.
  { 'one two three', ':s/two/2222/<CR>', { 6, 0, 'X' }, 'one 22X22 three', 'one twoX three' },
  -- Lines that a command deleted come back beside others' lines.
  { 'a\nfoo\nb\nfoo\nc', ':g/foo/d<CR>', { 2, 0, 'new\n' }, 'a\nnew\nb\nc', 'a\nfoo\nnew\nb\nfoo\nc' },
  { 'ä€ä€', ':s/€/😀😀/g<CR>', { 2, 2, '' }, 'ä😀😀😀', 'ä€€' },
}) do
  local first, command, other, now, back = unpack(row)
  local document, fake, buffer = buffer_of(first)
  keys('gg' .. command)
  document:flush()
  check(fake.count == 1, command .. ' is one change')
  fake.coming[1] = function()
    fake:splice(unpack(other))
  end
  document:receive('')
  check(fake:text() == now and text_of_buffer(buffer) == now, 'beside others: ' .. fake:text())
  for turn, wanted in ipairs({ back, now, back }) do
    document:turn_back(turn == 2)
    check(fake:text() == wanted and text_of_buffer(buffer) == wanted and fake.count == 2 + turn,
      ('turn %d of %s beside others: %s, %d changes'):format(turn, command, fake:text(), fake.count))
  end
  document:check()
  check(document.mended == 0, command .. ' was mended')
  document:close()
end

-- A command is a change as soon as Neovim is back in its loop; those within 100 ms after it are the next. What comes while one
-- waits for that finds it made.
do
  local edited = 0
  vim.cmd('silent! enew!')
  local buffer, fake = api.nvim_get_current_buf(), Fake.new('a foo\nfoo b foo\n')
  local document = Document.new(buffer, fake, 'a stand-in', {
    edited = function()
      edited = edited + 1
    end,
  })
  keys(':%s/foo/xy/g<CR>')
  check(fake.count == 0, 'a command that is not over')
  vim.wait(50)
  check(fake.count == 1 and edited == 1 and fake:text() == 'a xy\nxy b xy\n', 'a command that is over: ' .. fake:text())
  keys('ggx')
  keys('x')
  vim.wait(30)
  check(fake.count == 1, 'commands right after it')
  vim.wait(200)
  check(fake.count == 2 and edited == 2 and fake:text() == 'xy\nxy b xy\n', 'commands after it: ' .. fake:text())
  keys('Go<Esc>iend<Esc>')
  fake.coming[1] = function()
    fake:splice(3, 2, '')
    fake:splice(0, 0, 'first ')
  end
  document:receive('')
  check(fake.count == 5 and edited == 3 and fake:text() == 'first xy\n b xy\n\nend', 'what comes: ' .. fake:text())
  check(fake:text() == text_of_buffer(buffer), 'the buffer after what came')
  vim.wait(200)
  check(fake.count == 5 and edited == 3 and document:check() and document.mended == 0, 'nothing is made twice')
  document:close()
end

-- Bytes that are no UTF-8, and what is too much for one change.
do
  told = {}
  local document, fake, buffer = buffer_of('abc')
  api.nvim_buf_set_lines(buffer, 0, -1, true, { 'a\255b', 'x\237\160\128', 'nul\0' })
  document:flush()
  check(fake:text() == 'a\239\191\189b\nx' .. ('\239\191\189'):rep(3) .. '\nnul\0', 'bytes that are no UTF-8')
  check(fake:text() == text_of_buffer(buffer), 'a buffer with bytes that were no UTF-8')
  check(#told == 1 and told[1]:find('4 bytes', 1, true), 'what is told of them: ' .. vim.inspect(told))
  api.nvim_buf_set_text(buffer, 0, 0, 0, 1, { ('ä'):rep(150000) })
  document:flush()
  check(fake:text() == text_of_buffer(buffer), 'a text of 150,000 characters')
  vim.cmd('%d')
  document:flush()
  check(fake:text() == '', 'a text of 150,000 characters, deleted')
  document:close()
end

-- The buffer and what is kept differ for a reason that nobody thought of: it is mended and reported.
do
  told = {}
  local document, fake, buffer = buffer_of('abc\ndef')
  document:change(function()
    api.nvim_buf_set_lines(buffer, 0, 1, true, { 'other' })
  end)
  check(not document:check() and fake:text() == 'other\ndef' and #told == 1, 'a difference is mended')
  fake:splice(0, 1, 'X')
  check(not document:check() and fake:text() == 'other\ndef' and #told == 2, 'a difference of the engine is mended')
  check(document:check(), 'once mended it is the same')
  fake.edit = function()
    error('no more', 0)
  end
  api.nvim_buf_set_lines(buffer, 0, 1, true, { 'typed' })
  document:flush()
  check(document.stopped == 'no more' and fake.closed and vim.bo[buffer].modified and #told == 3, 'an edit that is refused')
end

-- A difference where something comes is mended: the text is shown anew.
do
  told = {}
  local document, fake, buffer = buffer_of('abc\ndef')
  document:change(function()
    api.nvim_buf_set_lines(buffer, 0, 1, true, { 'other' })
  end)
  fake.coming[1] = function()
    fake:splice(7, 0, '!')
  end
  document:receive('')
  check(text_of_buffer(buffer) == 'abc\ndef!' and document.mended == 1 and #told == 1, 'a difference is mended where something comes')
  document:close()
end

-- A buffer that is unloaded with no word is no empty text.
do
  told = {}
  local document, fake, buffer = buffer_of('abc')
  keys('Ad<Esc>')
  document:flush()
  keys('Ae<Esc>')
  vim.cmd('noautocmd enew | noautocmd bunload! ' .. buffer)
  document:flush()
  check(fake:text() == 'abcd' and fake.closed and document.stopped == 'its buffer was unloaded' and #told == 1,
    'a buffer that was unloaded: ' .. vim.inspect({ fake:text(), document.stopped, told }))
end

-- The commands, over the stand-in: what was typed after a document stopped is taken over when it is opened again.
do
  told = {}
  local engines = {}
  package.loaded['textpeer.engine'] = {
    open = function(path)
      if not engines[path] then
        error('Busy', 0)
      end
      return engines[path]
    end,
  }
  local textpeer = require('textpeer')
  vim.cmd('runtime plugin/textpeer.lua')
  local path = vim.fn.tempname()
  vim.fn.writefile({ 'a file' }, path)
  textpeer.command('open', { args = path })
  textpeer.command('open', { args = path .. '.absent' })
  textpeer.command('connect', { args = '127.0.0.1:7000' })
  check(#told == 3 and told[1]:find('another has it open', 1, true) and told[2]:find('is not there', 1, true)
    and told[3]:find('no journal', 1, true), 'what is told: ' .. vim.inspect(told))
  engines[path] = Fake.new('first\n')
  textpeer.command('open', { args = path })
  local buffer = api.nvim_get_current_buf()
  check(text_of_buffer(buffer) == 'first\n' and not vim.bo.modified, 'what is opened')
  textpeer.command('connect', { args = 'nowhere' })
  check(#told == 4 and told[4]:find('no address', 1, true), 'an address')
  keys('Atyped<Esc>')
  vim.cmd('write')
  check(engines[path]:text() == 'firsttyped\n', 'what is typed')
  keys('A!<Esc>')
  vim.cmd('edit!')
  check(engines[path].closed and text_of_buffer(buffer) == 'firsttyped!\n' and #told == 4, 'the text after :edit')
  engines[path].closed = false
  keys('u')
  vim.cmd('write')
  check(engines[path]:text() == 'firsttyped!\n', 'what was there before is not undone')
  keys('x')
  keys('u')
  check(engines[path]:text() == 'firsttyped!\n' and text_of_buffer(buffer) == 'firsttyped!\n', 'an undo')
  textpeer.of().document:check()
  keys('<C-r>')
  check(engines[path]:text() == text_of_buffer(buffer) and #text_of_buffer(buffer) == 11, 'a redo')
  keys('u')
  engines[path].edit = function()
    error('JournalFailed', 0)
  end
  keys('ggOlost?<Esc>')
  textpeer.of().document:flush()
  check(textpeer.of().document.stopped == 'JournalFailed' and vim.bo.modified, 'a journal that fails')
  keys('Aand more<Esc>')
  engines[path] = Fake.new('firsttyped!\n')
  textpeer.command('open', { args = path })
  check(engines[path]:text() == 'lost?and more\nfirsttyped!\n' and not textpeer.of().document.stopped and not vim.bo.modified,
    'what was typed after that: ' .. vim.inspect({ engines[path]:text(), told }))
  vim.cmd('bwipeout')
  check(engines[path].closed, 'the end of a buffer frees its journal')
end

io.stdout:write(('seed %d: %d commands, in %d of which the events misled; %d arrivals, %d cursors, %d marks, %d undone\n'):format(seed,
  commands, compared, arrivals, cursors, marks, undone))
if vim.env.TEXTPEER_MISLED then
  for row in pairs(misled) do
    io.stdout:write('  ' .. row .. '\n')
  end
end
checks.finish()
