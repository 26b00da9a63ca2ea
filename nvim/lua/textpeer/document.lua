-- A buffer and the engine's document that it shows.
--
-- What the engine has is kept as lines (`shown`). Neovim's events say where the buffer has become another since; once the
-- command is done that is read and becomes one change of the document. What comes from others becomes changes of the buffer,
-- between commands alone.
--
-- Pieces are as `pieces` makes them, of what is shown, by bytes.
local Lines = require('textpeer.lines')
local Spans = require('textpeer.spans')
local Undo = require('textpeer.undo')
local pieces_of = require('textpeer.pieces')
local say = require('textpeer.say')
local utf8 = require('textpeer.utf8')
local windows = require('textpeer.windows')

local api = vim.api

local Document = {}
Document.__index = Document

-- The modes in which what others did is shown: not while a command is half typed, or something is selected or completed.
local MAY_CHANGE = { n = true, i = true, niI = true, nt = true, t = true }
-- How long after a change another may wait, in milliseconds: keys that follow one another within that time make one.
local REST = 100
-- How many places of a row become changes of the buffer by themselves.
local MOST_IN_ROW = 16
-- How many spans may be passed by the events of one command; to compare the whole is quicker then.
local MOST_PASSED = 2000000
-- After how long without an edit the whole buffer is compared, in milliseconds.
local CHECK = 1000

-- What refusals mean that end the sharing, and what is done then.
local WORDS = {
  JournalFailed = "the journal can't be written any more, or was moved, removed, replaced or cut",
  Stopped = 'the journal failed before',
}
local AGAIN = 'put the journal back or make room, and :TextpeerOpen it again, which takes what you typed'

-- The time in milliseconds.
local function now()
  return vim.loop.hrtime() / 1e6
end

local function lines_of(buffer)
  return api.nvim_buf_get_lines(buffer, 0, -1, true)
end

-- How many bytes a buffer of `count` lines has, with a newline after the last one, whether it is written there or not.
-- Where a line begins isn't asked for: Neovim may answer with what that was before a change.
local function size_of(buffer, count)
  local options, size = vim.bo[buffer], api.nvim_buf_get_offset(buffer, count)
  return (options.endofline or options.fixendofline and not options.binary) and size or size + 1
end

-- Whether the text may be changed now.
function Document.may_change()
  local mode = api.nvim_get_mode()
  return not mode.blocking and vim.fn.pumvisible() == 0 and MAY_CHANGE[mode.mode] == true
end

-- Whether the buffer is as a command left it: also while something is selected or an operator waits for its motion.
function Document.is_settled()
  local mode = api.nvim_get_mode()
  local kind = mode.mode:sub(1, 1)
  return not mode.blocking and kind ~= 'c' and kind ~= 'r' and kind ~= '!'
end

-- Shows the engine's document in the buffer. Of `calls`, `edited` is called after edits, `closed` once it is over, and
-- `is_there` says whether the journal is still where it was opened. Where the buffer has a text that was typed since a document
-- stopped, `kept` is what that one's `texts` gives: the text becomes edits.
function Document.new(buffer, engine, path, calls, kept)
  local self = setmetatable({
    buffer = buffer,
    engine = engine,
    path = path,
    calls = calls,
    spans = Spans.new(),
    history = Undo.new(engine),
    entered = 0,
    mended = 0,
  }, Document)
  self:attach()
  if kept then
    self:take_over(kept)
  else
    self:fill()
  end
  return self
end

-- Makes edits of what was typed since a document stopped: the engine has to have one of the texts of that one.
function Document:take_over(kept)
  local text = self.engine:text()
  for _, shown in ipairs(kept) do
    if text == shown:text() then
      self.shown = shown
      self.unsure = true
      return self:flush()
    end
  end
  error('its text is another than when it stopped: save the buffer as another file, and wipe it out first', 0)
end

-- The texts that the journal may have once this has stopped: the engine's, and the one that a refused edit was to make, which
-- the file may have all the same.
function Document:texts()
  return { self.shown, self.refused }
end

-- Whether it is over: it has stopped, or its buffer was unloaded with no word. An unloaded buffer has no lines, and is no text
-- that anyone wrote.
function Document:is_over()
  if not self.stopped and not (self.attached and api.nvim_buf_is_loaded(self.buffer)) then
    self:stop('its buffer was unloaded')
  end
  return self.stopped ~= nil
end

-- Changes the buffer so that no edit is made of it.
function Document:change(call)
  local options = vim.bo[self.buffer]
  local modifiable = options.modifiable
  self.applying = true
  if not modifiable then
    options.modifiable = true
  end
  local ok, problem = pcall(call)
  if not modifiable then
    options.modifiable = false
  end
  self.applying = false
  if not ok then
    error(problem, 0)
  end
end

-- Puts the engine's whole text into the buffer, with nothing to undo.
function Document:fill()
  self.shown = Lines.of(Lines.split(self.engine:text()))
  self.spans = Spans.new()
  self:change(function()
    local levels = vim.bo[self.buffer].undolevels
    vim.bo[self.buffer].undolevels = -1
    api.nvim_buf_set_lines(self.buffer, 0, -1, true, self.shown.list)
    vim.bo[self.buffer].undolevels = levels
  end)
  vim.bo[self.buffer].modified = false
end

function Document:attach()
  self.attached = api.nvim_buf_attach(self.buffer, false, {
    on_bytes = function(_, _, _, _, _, at, _, _, removed, _, _, added)
      if self.stopped then
        return true
      end
      if self.applying then
        return
      end
      -- The newline after the last line counts where a line is joined with one after it: the text has none there.
      if self.spans.passed > MOST_PASSED then
        self.unsure = true
      else
        self.spans:add(at, math.max(removed, 0), added)
      end
      self:wait()
    end,
    -- All of it may be another: the whole is compared.
    on_reload = function()
      self.unsure = true
      self:wait()
    end,
    on_detach = function()
      self.attached = false
    end,
  })
end

-- Makes the edits once the command is done: as soon as Neovim is back in its loop, but so long after the last change.
function Document:wait()
  if self.waiting then
    return
  end
  self.waiting = true
  local function attempt()
    if Document.is_settled() then
      self.waiting = false
      self:flush()
    else
      vim.defer_fn(attempt, REST)
    end
  end
  local rested = now() - (self.changed or -REST)
  if rested >= REST then
    vim.schedule(attempt)
  else
    vim.defer_fn(attempt, math.ceil(REST - rested))
  end
end

-- The places of the pieces, of what is shown: each with rows and columns, and as `undo` takes them.
function Document:places_of(pieces)
  local places, shown = {}, self.shown
  for i, piece in ipairs(pieces) do
    local row, column = shown:place_of_byte(piece.from)
    local at = shown:char_of(row, column)
    local to_row, to_column = shown:place_of_byte(piece.to)
    places[i] = {
      row = row,
      column = column,
      to_row = to_row,
      to_column = to_column,
      at = at,
      count = shown:char_of(to_row, to_column) - at,
      old = shown:between(row, column, to_row, to_column),
      added = utf8.count(piece.text),
      text = piece.text,
    }
  end
  return places
end

-- Puts U+FFFD into the buffer for each byte that is no UTF-8, and says so. The engine's texts have no such bytes.
function Document:clean(lines)
  local count = 0
  for i, line in ipairs(lines) do
    local cleaned, replaced = utf8.clean(line)
    if replaced > 0 then
      count = count + replaced
      self:change(function()
        api.nvim_buf_set_lines(self.buffer, i - 1, i, true, { cleaned })
      end)
    end
  end
  if count > 0 then
    say.warning(('%d %s no UTF-8, now U+FFFD'):format(count, count == 1 and 'byte was' or 'bytes were'))
  end
  return count
end

-- The text of the lines between two places by bytes, which rise from one call to the next: `mark` has the row of the last
-- one, and the bytes before it. A newline is seen after the last line.
local function text_in(lines, mark, from, to)
  if from == to then
    return ''
  end
  local function seek(at)
    while mark.row < #lines and mark.bytes + #lines[mark.row + 1] < at do
      mark.bytes = mark.bytes + #lines[mark.row + 1] + 1
      mark.row = mark.row + 1
    end
    return mark.row, at - mark.bytes
  end
  local row, column = seek(from)
  local to_row, to_column = seek(to)
  if row == to_row then
    return (lines[row + 1] or ''):sub(column + 1, to_column)
  end
  return lines[row + 1]:sub(column + 1) .. '\n' .. table.concat(lines, '\n', row + 2, to_row)
    .. (to_row > row + 1 and '\n' or '') .. (lines[to_row + 1] or ''):sub(1, to_column)
end

-- How one span of the old text has become another text: where it is from and what was and is there; nil where the events
-- misled. `mark` is as `text_in` takes it.
function Document:span_of(span, lines, mark)
  local shown, list = self.shown, self.shown.list
  local from, to, new_from, new_to = span.os, span.oe, span.ns, span.ne
  local row, column = shown:place_of_byte(from)
  local to_row, to_column = shown:place_of_byte(to)
  if not row or not to_row then
    return nil
  end
  -- Bytes that are half a character: the whole characters.
  while list[row + 1] and not utf8.is_boundary(list[row + 1], column) do
    column, from, new_from = column - 1, from - 1, new_from - 1
  end
  while list[to_row + 1] and not utf8.is_boundary(list[to_row + 1], to_column) do
    to_column, to, new_to = to_column + 1, to + 1, new_to + 1
  end
  local old = shown:between(row, column, to_row, to_column)
  local new = text_in(lines, mark, new_from, new_to)
  -- The text has no newline after its last line: whole lines that come or go at the end do so with the one before them.
  if to_row == #list then
    if old == '' or new == '' then
      from, old, new = from - 1, '\n' .. old, '\n' .. new
    end
    old, new = old:sub(1, -2), new:sub(1, -2)
  end
  local _, replaced = utf8.clean(new)
  if from < 0 or replaced > 0 then
    return nil
  end
  return from, old, new
end

-- The pieces that the events named; nil where they misled.
function Document:named_pieces(lines)
  local buffer, pieces, mark, last = self.buffer, {}, { row = 0, bytes = 0 }, 0
  if size_of(buffer, #lines) ~= self.shown:size() + self.spans:growth() then
    return nil
  end
  for _, span in ipairs(self.spans:list()) do
    local from, old, new = self:span_of(span, lines, mark)
    if not from or from < last then
      return nil
    end
    pieces_of.add(pieces, from, old, new)
    last = from + #old
  end
  return pieces
end

-- Makes edits of the pieces, if what is shown becomes these lines by them; whether it does.
function Document:edit(pieces, lines)
  if #pieces == 0 then
    return self.shown:equals(lines)
  end
  local places = self:places_of(pieces)
  local was = self.shown:replace(places)
  if not self.shown:equals(lines) then
    self.shown:restore(was)
    return false
  end
  local ok, problem = pcall(self.history.make, self.history, places)
  if not ok then
    -- Of several changes the first ones may be made.
    self.shown = Lines.of(Lines.split(self.engine:text()))
    error(problem, 0)
  end
  self.changed = now()
  return true
end

-- Stops where the journal isn't any more where it was opened; whether it is. The engine looks itself with each edit.
function Document:look()
  if not self.stopped and self.calls.is_there and not self.calls.is_there() then
    self:stop('JournalFailed')
  end
  return not self.stopped
end

-- Makes edits of all that the buffer has and the engine hasn't, all as one change: after this both have one text. Where the
-- events misled, it is found by comparing the whole.
function Document:flush()
  if not self:is_over() then
    self:take()
  end
end

function Document:take()
  if self.spans:is_empty() and not self.unsure then
    return
  end
  local before = self.changed
  local inserting = api.nvim_get_mode().mode:sub(1, 1) == 'i'
  self.history:begin(self.inserting)
  local ok, problem = pcall(function()
    local lines = lines_of(self.buffer)
    local pieces = not self.unsure and self:named_pieces(lines)
    if not (pieces and self:edit(pieces, lines)) then
      self:compare(lines)
    end
  end)
  self.spans = Spans.new()
  self.unsure = false
  self.inserting = inserting
  if not inserting then
    self.history:finish()
  end
  if not ok then
    self.refused = Lines.of(lines_of(self.buffer))
    return self:stop(tostring(problem))
  end
  vim.bo[self.buffer].modified = false
  self:check_later()
  if self.changed ~= before and self.calls.edited then
    self.calls.edited()
  end
end

-- Makes edits of all by which the buffer, which has these lines, differs from what is kept; whether it did.
function Document:compare(lines)
  if self.shown:equals(lines) then
    return false
  end
  if self:clean(lines) > 0 then
    lines = lines_of(self.buffer)
  end
  local pieces = pieces_of.between(self.shown:text(), table.concat(lines, '\n'))
  if not self:edit(pieces, lines) then
    error('the buffer has lines that are no text', 0)
  end
  return true
end

-- Compares the buffer, what is kept of it and the engine's text, once there were no edits for a while.
function Document:check_later()
  self.check_number = (self.check_number or 0) + 1
  local number = self.check_number
  vim.defer_fn(function()
    if number == self.check_number and not self.stopped then
      if Document.is_settled() then
        self:check()
      else
        self:check_later()
      end
    end
  end, CHECK)
end

-- Compares the buffer, what is kept of it and the engine's text, and mends what differs: the buffer's text becomes the
-- engine's by edits. Says so, and whether all was the same.
function Document:check()
  self:flush()
  if not self:look() then
    return false
  end
  local same
  local ok, problem = pcall(function()
    local text = self.engine:text()
    same = text == self.shown:text()
    if not same then
      self.shown = Lines.of(Lines.split(text))
    end
    local lines = lines_of(self.buffer)
    if not self.shown:equals(lines) then
      same = false
      self.history:begin(false)
      self:compare(lines)
      self.history:finish()
    end
  end)
  if not ok then
    self:stop(tostring(problem))
    return false
  end
  if not same then
    self.mended = self.mended + 1
    say.error('the buffer and the engine had different texts; the engine has the buffer\'s now')
    if self.calls.edited then
      self.calls.edited()
    end
  end
  return same
end

-- The places as Neovim is given them: those of a row with very many as one, since it keeps the whole row for each.
local function few_in_a_row(places, shown)
  local few, i = {}, 1
  while places[i] do
    local first, last = i, i
    while places[last + 1] and places[last + 1].row == places[last].to_row do
      last = last + 1
    end
    i = last + 1
    if last - first < MOST_IN_ROW then
      for k = first, last do
        few[#few + 1] = places[k]
      end
    else
      local parts, from, to = { places[first].text }, places[first], places[last]
      for k = first + 1, last do
        local before = places[k - 1]
        parts[#parts + 1] = shown:between(before.to_row, before.to_column, places[k].row, places[k].column)
        parts[#parts + 1] = places[k].text
      end
      local text = table.concat(parts)
      few[#few + 1] = { row = from.row, column = from.column, to_row = to.to_row, to_column = to.to_column, text = text }
    end
  end
  return few
end

-- Puts the texts of places, as `places_of` makes them, into what is shown and into the buffer.
function Document:put(places)
  local few = few_in_a_row(places, self.shown)
  self:change(function()
    for i = #few, 1, -1 do
      local place = few[i]
      api.nvim_buf_set_text(self.buffer, place.row, place.column, place.to_row, place.to_column, Lines.split(place.text))
    end
  end)
  self.shown:replace(places)
end

-- Puts pieces whose places count characters, as the engine and `undo` have them, into what is shown and into the buffer. Their
-- rows and columns are found from those that were looked for last: it takes the lines between, and the bytes of a line up to
-- the place where not all of it is ASCII.
function Document:put_pieces(pieces)
  for _, piece in ipairs(pieces) do
    piece.row, piece.column = self.shown:place_of_char(piece.at)
    piece.to_row, piece.to_column = self.shown:place_of_char(piece.at + piece.count)
  end
  self:put(pieces)
end

-- Whether the buffer has as many lines and bytes as what is shown. None of it is read.
function Document:is_alike()
  local count = api.nvim_buf_line_count(self.buffer)
  return count == #self.shown.list and size_of(self.buffer, count) == self.shown:size()
end

-- Shows in the windows what they held, after pieces were put into the buffer. Where it isn't like what is shown then it is shown
-- anew; what else may differ the next edit finds, or `check`.
function Document:settle(held)
  if not self:is_alike() then
    self.mended = self.mended + 1
    say.error('the buffer had another text than the engine; it is shown anew')
    self:change(function()
      api.nvim_buf_set_lines(self.buffer, 0, -1, true, self.shown.list)
    end)
  end
  windows.release(held, self.shown, self.engine)
  vim.bo[self.buffer].modified = false
end

-- Shows what came since the engine had these heads, and the buffer their text: only what changed of it is changed there.
function Document:arrived(heads, held)
  local pieces = self.engine:differences_since(heads)
  if #pieces > 0 then
    self:put_pieces(pieces)
    self:settle(held)
  end
end

-- Insert mode was left: what is typed next is undone separately from what was typed before.
function Document:leave_insert()
  vim.schedule(function()
    self:flush()
    self.inserting = false
    self.history:finish()
  end)
end

-- Takes back the last edits that were made here, or makes them again, and shows where; false where there are none.
function Document:turn_back(again)
  self:flush()
  if self.stopped then
    return false
  end
  local held = windows.hold(self.buffer, self.shown, self.engine)
  local ok, place = pcall(again and self.history.redo or self.history.undo, self.history, function(pieces)
    self:put_pieces(pieces)
  end)
  if not ok then
    self:stop(tostring(place))
    return false
  end
  if not place then
    return false
  end
  self.changed = now()
  self:settle(held)
  local row, column = self.shown:place_of_char(place)
  api.nvim_win_set_cursor(0, { row + 1, column })
  self:check_later()
  if self.calls.edited then
    self.calls.edited()
  end
  return true
end

-- Begins a session; what is to be sent at once.
function Document:begin()
  self:flush()
  if not self:look() then
    return nil
  end
  return self.engine:begin()
end

-- Takes bytes of the other side, and shows what they brought. As `feed` of the engine; nil once it has stopped. It is called
-- while text may be changed.
function Document:receive(bytes)
  self:flush()
  if self.stopped then
    return nil
  end
  local before, heads = self.engine:change_count(), self.engine:heads()
  local held = windows.hold(self.buffer, self.shown, self.engine)
  local answer, going, refusal = self.engine:feed(bytes)
  if refusal and self.engine.has_stopped(refusal) then
    return self:stop(refusal.name)
  end
  local entered = self.engine:change_count() - before
  if entered > 0 then
    self.entered = self.entered + entered
    local ok, problem = pcall(self.arrived, self, heads, held)
    if not ok then
      self:stop(tostring(problem))
      return nil
    end
    self:check_later()
  end
  return answer, going, refusal
end

-- Why it has stopped, for people.
function Document:reason()
  local words = WORDS[self.stopped]
  return words and ('%s, %s'):format(self.stopped, words) or self.stopped
end

-- The buffer is no longer the engine's: says so, and why. Its text stays, as one that isn't saved.
function Document:stop(reason)
  if self.stopped then
    return
  end
  self.stopped = reason
  self.engine:close()
  if api.nvim_buf_is_loaded(self.buffer) then
    vim.bo[self.buffer].modified = true
  end
  say.error(('%s is no longer shared (%s). What you type stays in view and is kept nowhere: save it by :saveas FILE, or %s'):format(
    self.path, self:reason(), WORDS[reason] and AGAIN or 'open the journal again'))
  if self.calls.closed then
    self.calls.closed()
  end
end

-- Makes the last edits and frees the journal; also while Neovim unloads the buffer, which has been detached then.
function Document:close()
  if self.stopped then
    return
  end
  if api.nvim_buf_is_loaded(self.buffer) then
    self:take()
  end
  if not self.stopped then
    self.stopped = 'closed'
    self.engine:close()
    if self.calls.closed then
      self.calls.closed()
    end
  end
end

return Document
