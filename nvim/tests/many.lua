-- One command is one change: `:%s` at 11,794 places of a text of 1 MB and its undo, what another deleted meanwhile, other
-- commands at many places, and what takes more than a change has room for. Texts are compared with those that plain Lua makes
-- of the same lines. Prints what each took; TEXTPEER_MOST_MS (5000) is the most that a command may take, in milliseconds; what
-- comes may take a tenth of that of the processor's time. It needs the engine's library and the program `textpeer`
-- ($TEXTPEER_PROGRAM), and exits 1 at a difference.
local uv = vim.loop
local here = debug.getinfo(1, 'S').source:sub(2):match('(.*)/')
package.path = here .. '/?.lua;' .. package.path
local Editor = require('editor')
local Server = require('server')
local checks = require('checks')

local check, run, wait = checks.check, checks.run, checks.wait
local most = tonumber(vim.env.TEXTPEER_MOST_MS or '5000')
local folder = vim.fn.tempname()
vim.fn.mkdir(folder, 'p')

local LINES, PLACES = 20000, 11794

-- Lines with `foo` in the first of these places, twice in every fourth line; each line has 50 bytes with its newline.
local function lines_of(count, places)
  local lines = {}
  for i = 1, count do
    -- Every number below `count` once, in no order.
    local line = ('%05d'):format(i * 7919 % count)
    local here_too = math.min(places, i % 4 == 0 and 2 or i % 4 == 2 and 0 or places > 0 and 1 or 0)
    places = places - here_too
    line = line .. (' and foo'):rep(here_too)
    lines[i] = line .. (' of words as they come, one after another, all the day'):sub(1, 49 - #line)
  end
  check(places == 0, 'there are more places')
  return lines
end

-- The lines after a `:%s/foo/TEXT/g`.
local function replaced(lines, text)
  local new = {}
  for i, line in ipairs(lines) do
    new[i] = line:gsub('foo', text)
  end
  return new
end

local function text_of(lines)
  return table.concat(lines, '\n')
end

-- An editor with the journal of that name.
local function editor_of(name)
  local editor = Editor.start()
  editor.name = name
  local path = folder .. '/' .. name .. '.journal'
  editor:command((uv.fs_stat(path) and 'TextpeerOpen ' or 'TextpeerOpen! ') .. path)
  -- What `call` takes, in milliseconds by the clock and of the processor; and what took longest of what came.
  editor:lua([[
    local function processor()
      local used = vim.loop.getrusage()
      return (used.utime.sec + used.stime.sec) * 1e3 + (used.utime.usec + used.stime.usec) / 1e3
    end
    function _G.measured(call)
      local start, used = vim.loop.hrtime(), processor()
      call()
      return { (vim.loop.hrtime() - start) / 1e6, processor() - used }
    end
    local Document = require('textpeer.document')
    local receive = Document.receive
    _G.longest = { 0, 0 }
    Document.receive = function(...)
      local given, answer, going, refusal = { ... }, nil, nil, nil
      local took = _G.measured(function()
        answer, going, refusal = receive(unpack(given))
      end)
      _G.longest = took[1] > _G.longest[1] and took or _G.longest
      return answer, going, refusal
    end
  ]])
  return editor
end

-- Types the keys at once, and waits for the change that Neovim's loop makes of them: { what that took, changes, bytes by which
-- the journal grew }.
local function typed(editor, keys)
  return editor:lua([[
    local keys = ...
    local document = require('textpeer').of().document
    vim.wait(150)
    local before, size = document.engine:change_count(), vim.fn.getfsize(document.path)
    local took = _G.measured(function()
      vim.api.nvim_feedkeys(vim.api.nvim_replace_termcodes(keys, true, false, true), 'xt', false)
      vim.wait(10000, function()
        return document.engine:change_count() > before
      end, 1)
    end)
    vim.wait(150)
    return { took, document.engine:change_count() - before, vim.fn.getfsize(document.path) - size }
  ]], keys)
end

-- That the editor's buffer and engine have the lines, and nothing had to be mended.
local function has(editor, lines, what)
  local text = text_of(lines)
  check(editor:text() == text, what .. ': the text of ' .. editor.name)
  check(editor:engine() == text, what .. ': the engine\'s text of ' .. editor.name)
  local mended, stopped = unpack(editor:lua([[
    local document = require('textpeer').of().document
    document:check()
    return { document.mended, document.stopped or false }
  ]]))
  check(mended == 0 and not stopped, what .. ': ' .. editor.name .. ' had to mend or stopped')
end

-- What something took, in words.
local function time_of(took)
  return ('%d ms (%d of the processor)'):format(unpack(took))
end

-- Types the keys: they make `changes` changes, and the lines. What that took, in words, and by how many bytes the
-- journal grew.
local function makes(editor, keys, changes, lines, what)
  local took, made, grown = unpack(typed(editor, keys))
  check(made == changes, ('%s: %d changes, not %d'):format(what, made, changes))
  check(took[1] < most, what .. ': took ' .. time_of(took))
  has(editor, lines, what)
  return time_of(took), grown
end

-- A journal of the lines, made by an editor.
local function journal_of(name, lines)
  local editor = editor_of(name)
  editor:lua('vim.api.nvim_buf_set_lines(0, 0, -1, true, ...)', lines)
  has(editor, lines, 'a new journal')
  return editor
end

local function tell(what, ...)
  io.stdout:write('  ' .. what:format(...) .. '\n')
end

-- What a place takes in a change, by docs/FORMATS.md: a run of deletes has 29 bytes (its tag, a counter, an actor, its count),
-- an insert run 30 beside its text (its tag, the reference's with a counter and an actor, a length). The change around them,
-- with one dependency, has 81, and its record in the journal 36.
local function bytes_of(places, text)
  return places * (29 + 30 + #text) + 81 + 36
end

local function at_all_places()
  local lines = lines_of(LINES, PLACES)
  local ann = journal_of('server', lines)
  ann:quit()
  for _, name in ipairs({ 'ann', 'ben' }) do
    uv.fs_copyfile(folder .. '/server.journal', folder .. '/' .. name .. '.journal')
  end
  local server = Server.start(folder .. '/server.journal', 0)
  ann = editor_of('ann')
  local ben = editor_of('ben')
  local function connect()
    for _, editor in ipairs({ ann, ben }) do
      editor:command('TextpeerConnect 127.0.0.1:' .. server.port)
    end
  end
  -- Both have these lines soon. How long what came to Ben took, in words.
  local function meet(wanted, what)
    wait(what .. ': one text', function()
      local _, a = ann:engine()
      local _, b = ben:engine()
      return a == b and a == text_of(run('heads', folder .. '/server.journal'))
    end, 60)
    has(ann, wanted, what)
    has(ben, wanted, what)
    local longest = ben:lua('local longest = _G.longest _G.longest = { 0, 0 } return longest')
    check(longest[1] < most and longest[2] < most / 10, what .. ': it took Ben ' .. time_of(longest))
    return time_of(longest)
  end
  connect()
  meet(lines, 'at first')

  lines[10000] = 'x' .. lines[10000]
  local took, grown = makes(ann, '10000Gix<Esc>', 1, lines, 'a character')
  tell('a character: %s, %s where it comes', took, meet(lines, 'a character'))
  local wanted = replaced(lines, 'xy')
  took, grown = makes(ann, ':%s/foo/xy/g<CR>', 1, wanted, ':%s')
  tell('%d bytes, :%%s at %d places: %s, %s where it comes, %.2f times the bytes of the places', #text_of(lines), PLACES, took,
    meet(wanted, ':%s'), grown / bytes_of(PLACES, 'xy'))
  check(grown < 1.5 * bytes_of(PLACES, 'xy'), 'the journal grew by ' .. grown)
  took, grown = makes(ann, 'u', 1, lines, 'its undo')
  tell('its undo: %s, %s where it comes, %.2f times the bytes of the places', took, meet(lines, 'its undo'),
    grown / bytes_of(PLACES, 'foo'))
  check(grown < 1.5 * bytes_of(PLACES, 'foo'), 'the journal grew by ' .. grown)
  took = makes(ann, '<C-r>', 1, wanted, 'its redo')
  tell('its redo: %s, %s where it comes', took, meet(wanted, 'its redo'))
  makes(ann, 'u', 1, lines, 'undone again')
  meet(lines, 'undone again')

  -- Seven operations at each place are more than one change has room for: 65,536 of them are 9,362 places.
  took = makes(ann, ':%s/foo/wxyz/g<CR>', 2, replaced(lines, 'wxyz'), 'two changes')
  local longest = meet(replaced(lines, 'wxyz'), 'two changes')
  tell(':%%s of %d operations, two changes: %s, %s where it comes', 7 * PLACES, took, longest)
  makes(ann, 'u', 2, lines, 'the undo of two changes')
  meet(lines, 'the undo of two changes')

  -- Ben deletes 40 lines, 2,000 characters, while Ann replaces all places and neither knows: none of Ben's lines comes back,
  -- and what Ann wrote in them stays.
  for _, editor in ipairs({ ann, ben }) do
    editor:command('TextpeerDisconnect')
  end
  local without, merged, there = {}, {}, {}
  for i, line in ipairs(lines) do
    if i <= 100 or i > 140 then
      without[#without + 1] = line
    else
      there[#there + 1] = ('xy'):rep(select(2, line:gsub('foo', '')))
    end
  end
  makes(ben, ':101,140d<CR>', 1, without, 'lines that Ben deletes')
  makes(ann, ':%s/foo/xy/g<CR>', 1, wanted, 'places that Ann replaces')
  for i, line in ipairs(replaced(without, 'xy')) do
    merged[i] = i == 101 and table.concat(there) .. line or line
  end
  connect()
  longest = meet(merged, 'what another deleted')
  tell('of 2,000 characters that another deleted none comes back; %s where it comes', longest)
  -- The undo deletes what Ann inserted, and brings back what she deleted, which Ben had deleted too.
  for i, line in ipairs(without) do
    merged[i] = i == 101 and table.concat(there):gsub('xy', 'foo') .. line or line
  end
  makes(ann, 'u', 1, merged, 'the undo beside what another deleted')
  meet(merged, 'the undo beside what another deleted')
  ann:quit()
  ben:quit()
  server:kill()
end

-- Other commands at many places of a small text, each one change, as their undo is.
local function other_commands()
  local lines = lines_of(300, 150)
  local editor = journal_of('small', lines)
  local function of(call)
    local new = vim.deepcopy(lines)
    return call(new) or new
  end
  local function each(from, to, call)
    return of(function(new)
      for i = from, to do
        new[i] = call(new[i])
      end
    end)
  end
  local without = {}
  for _, line in ipairs(lines) do
    if not line:find('foo', 1, true) then
      without[#without + 1] = line
    end
  end
  local joined = of(function(new)
    return { text_of(new):gsub('\n', '-') .. '-' }
  end)
  local reversed = {}
  for i, line in ipairs(lines) do
    reversed[#lines + 1 - i] = line
  end
  editor:lua("vim.fn.setreg('q', 'A!' .. vim.api.nvim_replace_termcodes('<Esc>', true, false, true) .. 'j')")
  for _, row in ipairs({
    { ':sort<CR>', of(function(new) table.sort(new) end) },
    { ':g/foo/d<CR>', without },
    { ':g/^/m0<CR>', reversed },
    { ':%s/foo/bar/g<CR>', replaced(lines, 'bar') },
    { ':%s/foo/a\\rb/g<CR>', vim.split(text_of(replaced(lines, 'a\nb')), '\n') },
    { ':%s/\\n/-/<CR>', joined },
    { ':2,4m$<CR>', of(function(new) for _ = 1, 3 do table.insert(new, (table.remove(new, 2))) end end) },
    { ':1,300norm Iq<CR>', each(1, 300, function(line) return 'q' .. line end) },
    { 'gg20@q', each(1, 20, function(line) return line .. '!' end) },
    { 'gg0<C-v>9jIab<Esc>', each(1, 10, function(line) return 'ab' .. line end) },
    { 'gg0<C-v>9jc€<Esc>', each(1, 10, function(line) return '€' .. line:sub(2) end) },
    { 'gg0<C-v>Glld', each(1, 300, function(line) return line:sub(4) end) },
    { 'ggVGgU', each(1, 300, string.upper) },
    { ':%>><CR>', each(1, 300, function(line) return '\t\t' .. line end) },
  }) do
    local keys, wanted = unpack(row)
    makes(editor, keys, 1, wanted, keys)
    makes(editor, 'u', 1, lines, 'the undo of ' .. keys)
    makes(editor, '<C-r>', 1, wanted, 'the redo of ' .. keys)
    makes(editor, 'u', 1, lines, 'the undo of the redo of ' .. keys)
  end
  -- Neovim's own undo is a command too.
  editor:command('TextpeerDisconnect')
  editor:lua("vim.keymap.del('n', 'u', { buffer = 0 })")
  makes(editor, ':%s/foo/bar/g<CR>', 1, replaced(lines, 'bar'), 'before Neovim\'s undo')
  makes(editor, 'u', 1, lines, 'Neovim\'s undo')
  editor:quit()
end

for _, part in ipairs({ at_all_places, other_commands }) do
  local ok, problem = pcall(part)
  check(ok, tostring(problem))
end
vim.fn.delete(folder, 'rf')
checks.finish()
