-- The edits made here, and undo of these. Neovim's undo takes back the last change of the buffer, whoever made it; this one
-- takes back what was typed here, wherever it is by now, and leaves what others did.
--
-- Edits come as pieces { at, count, old, added, text }: the `count` characters `old` from `at` on become the `added` ones of
-- `text`. Pieces rise and don't touch, and all their places are of the text before the first of them. Those of one command
-- are one change.
--
-- Of each edit are kept the cursors of the characters that it inserted, of those that it deleted and of those around, and both
-- texts. To undo it deletes what it inserted, as far as that is still there, and inserts anew what it deleted: after
-- the character before it, not where its own tombstones are, since what is inserted again comes before these. What
-- undoes a change is one change too. Changes form groups, each undone at once: a command, or what was typed until
-- insert mode was left.
local utf8 = require('textpeer.utf8')

local Undo = {}
Undo.__index = Undo

-- A change has at most this many operations, each a character that comes or goes.
local MOST_OPERATIONS = 65536
-- How many groups are kept.
local MOST_GROUPS = 1000
-- Of a longer text that is deleted only the first character's cursor is kept: an undo brings it back, and that of the edit
-- that once inserted it doesn't find it then.
local MOST_CURSORS = 20000

function Undo.new(engine)
  -- `moved` has, by a character's actor and counter, the counter of that which an undo inserted in its place: it is `actor`'s,
  -- as all is that is inserted here.
  return setmetatable({ engine = engine, done = {}, undone = {}, moved = {}, asked = {} }, Undo)
end

-- Begins a group, or goes on with the last one if that isn't finished.
function Undo:begin(continue)
  if not (continue and self.open and #self.done > 0) then
    self.done[#self.done + 1] = {}
    if #self.done > MOST_GROUPS then
      table.remove(self.done, 1)
    end
  end
  self.open = true
end

-- A piece that is too much for one change, as pieces that aren't.
local function parts_of(piece)
  local parts, at, old, text = {}, piece.at, piece.old, piece.text
  local count, added = piece.count, piece.added
  while count + added > 0 do
    local deleted = math.min(count, MOST_OPERATIONS)
    local inserted = math.min(added, count - deleted > 0 and 0 or MOST_OPERATIONS - deleted)
    local cut, text_cut = utf8.bytes(old, deleted), utf8.bytes(text, inserted)
    parts[#parts + 1] = { at = at, count = deleted, old = old:sub(1, cut), added = inserted, text = text:sub(1, text_cut) }
    at, old, text = at + deleted, old:sub(cut + 1), text:sub(text_cut + 1)
    count, added = count - deleted, added - inserted
  end
  return parts
end

-- The pieces as lists. Each list is one change.
local function cut(pieces)
  local lists, room = { {} }, MOST_OPERATIONS
  local function put(piece)
    local operations = piece.count + piece.added
    if operations > room then
      lists[#lists + 1], room = {}, MOST_OPERATIONS
    end
    room = room - operations
    table.insert(lists[#lists], piece)
  end
  for _, piece in ipairs(pieces) do
    if piece.count + piece.added <= MOST_OPERATIONS then
      put(piece)
    else
      for _, part in ipairs(parts_of(piece)) do
        put(part)
      end
    end
  end
  return lists
end

-- Makes the edits that the pieces are, in the group that was begun: one change, or as many as it takes where they have more
-- than 65,536 operations. What was undone isn't done again after it.
function Undo:make(pieces)
  self.undone = {}
  local growth = 0
  for _, list in ipairs(cut(pieces)) do
    growth = self:change(self.done[#self.done], list, growth)
  end
end

-- No edit goes to the last group any more.
function Undo:finish()
  self.open = false
  if #self.done > 0 and #self.done[#self.done] == 0 then
    self.done[#self.done] = nil
  end
end

-- Makes one change of the pieces, whose places are of a text that has grown by `growth` before them, and puts its edits into
-- the group. By how much that text has grown then.
function Undo:change(group, pieces, growth)
  local engine, edits, splices, grown = self.engine, {}, {}, growth
  local length = engine:length()
  for i, piece in ipairs(pieces) do
    local at = piece.at + growth
    local to = at + piece.count
    edits[i] = {
      was = self:runs_from(at, piece.count),
      before = at > 0 and engine:cursor(at - 1) or nil,
      after = to < length and engine:cursor(to) or nil,
      deleted = piece.old,
      text = piece.text,
      added = piece.added,
    }
    splices[i] = { at = piece.at + grown, count = piece.count, text = piece.text }
    grown = grown + piece.added - piece.count
  end
  engine:edit(splices)
  for i, edit in ipairs(edits) do
    if edit.added > 0 then
      edit.first, self.actor = engine:element(splices[i].at)
    end
  end
  group[#group + 1] = edits
  return grown
end

-- The cursors of `count` characters from a place on, as runs { counter, actor, count } of consecutive counters.
function Undo:runs_from(at, count)
  local engine, runs, last = self.engine, {}, nil
  for i = 0, count <= MOST_CURSORS and count - 1 or 0 do
    local counter, actor = engine:element(at + i)
    if last and last.counter + last.count == counter and last.actor == actor then
      last.count = last.count + 1
    else
      last = { counter = counter, actor = actor, count = 1 }
      runs[#runs + 1] = last
    end
  end
  return runs
end

-- The actor and the counter of the character, or of that which takes its place now.
function Undo:current(actor, counter)
  local moved = self.moved[actor]
  local to = moved and moved[counter]
  while to do
    actor, counter = self.actor, to
    moved = self.moved[actor]
    to = moved and moved[counter]
  end
  return actor, counter
end

-- Where a character is, or that which takes its place now; nil where both are gone. `guess` is where it may well be.
function Undo:place_of(actor, counter, guess)
  local engine, asked = self.engine, self.asked
  asked.actor, asked.counter = self:current(actor, counter)
  if guess and engine:is_at(asked, guess) then
    return guess
  end
  local at = engine:position(asked)
  return engine:is_at(asked, at) and at or nil
end

-- Where what an edit deleted was: after the character before it, or before that after it, or where it was itself if both are
-- gone.
function Undo:place_of_deleted(edit)
  local before, after = edit.before, edit.after
  local at = before and self:place_of(before.actor, before.counter)
  return at and at + 1 or after and self:place_of(after.actor, after.counter) or self.engine:position(edit.was[1])
end

-- The characters of the runs are what was inserted anew from a counter on.
function Undo:move(runs, to)
  local current, moved = self.current, self.moved
  for _, run in ipairs(runs) do
    for counter = run.counter, run.counter + run.count - 1 do
      local actor, last = current(self, run.actor, counter)
      local list = moved[actor]
      if not list then
        list = {}
        moved[actor] = list
      end
      list[last] = to
      to = to + 1
    end
  end
end

-- Puts what is left of an edit's text into the list, as ranges { at, count, text } of places.
function Undo:left_of(edit, ranges)
  local text, byte, last, from = edit.text, 0, nil, 0
  local function close()
    if last then
      last.text = text:sub(from + 1, byte)
      last = nil
    end
  end
  for counter = edit.first or 0, (edit.first or 0) + edit.added - 1 do
    local at = self:place_of(self.actor, counter, last and last.at + last.count)
    if not (at and last and last.at + last.count == at) then
      close()
      if at then
        last, from = { at = at, count = 0 }, byte
        ranges[#ranges + 1] = last
      end
    end
    if at then
      last.count = last.count + 1
    end
    byte = utf8.bytes(text, 1, byte)
  end
  close()
end

-- What undoes the edits of one change: ranges to delete and texts { at, edit } to insert, each rising.
function Undo:reverse_of(edits)
  local ranges, texts = {}, {}
  for i, edit in ipairs(edits) do
    self:left_of(edit, ranges)
    if edit.was[1] then
      texts[#texts + 1] = { at = self:place_of_deleted(edit), edit = edit, number = i }
    end
  end
  table.sort(ranges, function(a, b)
    return a.at < b.at
  end)
  table.sort(texts, function(a, b)
    return a.at < b.at or a.at == b.at and a.number < b.number
  end)
  return ranges, texts
end

-- Adds to the pieces: to the last one where they touch.
local function add(pieces, at, old, count, text, added)
  local last = pieces[#pieces]
  if not last or last.at + last.count < at then
    last = { at = at, count = 0, old = '', added = 0, text = '', back = {} }
    pieces[#pieces + 1] = last
  end
  last.count, last.old = last.count + count, last.old .. old
  last.added, last.text = last.added + added, last.text .. text
  return last
end

-- The pieces that delete the ranges and insert the texts. Each has in `back` the edits whose text it brings back, and after
-- how many characters of its own.
local function pieces_of(ranges, texts)
  local pieces, i, from = {}, 1, 0
  -- Deletes the ranges up to a place; `from` characters of the first one are deleted already.
  local function delete(to)
    while ranges[i] and ranges[i].at + from < to do
      local range = ranges[i]
      local count = math.min(range.count, to - range.at)
      local byte = utf8.bytes(range.text, from)
      local text = range.text:sub(byte + 1, utf8.bytes(range.text, count - from, byte))
      add(pieces, range.at + from, text, count - from, '', 0)
      i, from = count == range.count and i + 1 or i, count < range.count and count or 0
    end
  end
  for _, one in ipairs(texts) do
    delete(one.at)
    local edit = one.edit
    local last = pieces[#pieces]
    local before = last and last.at + last.count == one.at and last.added or 0
    last = add(pieces, one.at, '', 0, edit.deleted, utf8.count(edit.deleted))
    last.back[#last.back + 1] = { edit = edit, before = before }
  end
  delete(math.huge)
  return pieces
end

-- Undoes the edits of one change by another, which goes to the group. The pieces; nil where nothing was left to do.
function Undo:revert(group, edits)
  local pieces = pieces_of(self:reverse_of(edits))
  if #pieces == 0 then
    return nil
  end
  self:change(group, pieces, 0)
  for i, edit in ipairs(group[#group]) do
    for _, back in ipairs(pieces[i].back) do
      self:move(back.edit.was, edit.first + back.before)
    end
  end
  return pieces
end

-- Takes the last group from one list and reverts it into another. `made` is called with the pieces of each change that was
-- made. Where its first edit was, by characters; nil where there is no group.
function Undo:turn(from, to, made)
  local group = table.remove(from)
  if not group then
    return nil
  end
  local reverse, place = {}, nil
  to[#to + 1] = reverse
  for i = #group, 1, -1 do
    local pieces = self:revert(reverse, group[i])
    if pieces then
      made(pieces)
      place = pieces[1].at
    end
  end
  return place or 0
end

function Undo:undo(made)
  self:finish()
  return self:turn(self.done, self.undone, made)
end

function Undo:redo(made)
  return self:turn(self.undone, self.done, made)
end

return Undo
