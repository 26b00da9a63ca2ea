-- A stand-in for the engine in memory: a text, edits of it, and others' edits, for the tests of what a buffer becomes. It is
-- stricter than the engine where a place is out of range or a text no UTF-8.
local utf8 = require('textpeer.utf8')

local Fake = {}
Fake.__index = Fake

function Fake.new(text)
  local fake = setmetatable({ count = 0, all = {}, gone = {}, coming = {}, versions = {} }, Fake)
  fake.chars = fake:split(text)
  return fake
end

-- The characters of a text, each an own table, so that it has an identity: its counter.
function Fake:split(text)
  local chars = {}
  for char in text:gmatch('[%z\1-\127\194-\244][\128-\191]*') do
    local one = { char = char, counter = #self.all + 1, actor = 'fake' }
    self.all[one.counter] = one
    chars[#chars + 1] = one
  end
  return chars
end

function Fake:close()
  self.closed = true
end

function Fake:id()
  return ('\0'):rep(16)
end

function Fake:change_count()
  return self.count
end

-- The name of what is there now, of as many bytes as a hash.
function Fake:heads()
  local name = ('%032d'):format(self.count)
  self.versions[name] = self.chars
  return { name }
end

local function set_of(chars)
  local set = {}
  for _, char in ipairs(chars) do
    set[char] = true
  end
  return set
end

-- As the engine's, by the identities of the characters.
function Fake:differences_since(heads)
  local was, pieces, open, i = self.versions[heads[1]], {}, nil, 1
  local before, now = set_of(was), set_of(self.chars)
  local function piece_at(at)
    if not open then
      open = { at = at, count = 0, added = 0, text = '' }
      pieces[#pieces + 1] = open
    end
    return open
  end
  for at = 0, #was do
    while self.chars[i] and not before[self.chars[i]] do
      local piece = piece_at(at)
      piece.added, piece.text = piece.added + 1, piece.text .. self.chars[i].char
      i = i + 1
    end
    local char = was[at + 1]
    if char and now[char] then
      open, i = nil, i + 1
    elseif char then
      local piece = piece_at(at)
      piece.count = piece.count + 1
    end
  end
  return pieces
end

-- One change of splices, as the engine takes them.
function Fake:edit(splices)
  assert(not self.closed, 'edit after close')
  local operations, count = 0, self.count
  for _, splice in ipairs(splices) do
    operations = operations + splice.count + utf8.count(splice.text)
  end
  assert(operations <= 65536, 'TooManyOps')
  assert(operations > 0, 'nothing is asked')
  for _, splice in ipairs(splices) do
    self:splice(splice.at, splice.count, splice.text)
  end
  self.count = count + 1
end

-- A change of one splice, as others make it too.
function Fake:splice(at, delete, text)
  local _, replaced = utf8.clean(text)
  assert(replaced == 0, 'no UTF-8')
  assert(at >= 0 and delete >= 0 and at + delete <= #self.chars, 'OutOfRange')
  local new, added = {}, self:split(text)
  for i = 1, at do
    new[i] = self.chars[i]
  end
  -- What is deleted is remembered with the character that follows it, so that a cursor at it has a place.
  for i = at + 1, at + delete do
    self.gone[self.chars[i]] = self.chars[at + delete + 1] or 'end'
  end
  for _, char in ipairs(added) do
    new[#new + 1] = char
  end
  for i = at + delete + 1, #self.chars do
    new[#new + 1] = self.chars[i]
  end
  self.chars = new
  self.count = self.count + 1
end

function Fake:text()
  local parts = {}
  for i, char in ipairs(self.chars) do
    parts[i] = char.char
  end
  return table.concat(parts)
end

function Fake:cursor(at)
  assert(at >= 0 and at < #self.chars, 'OutOfRange')
  return self.chars[at + 1]
end

function Fake:element(at)
  local char = self:cursor(at)
  return char.counter, char.actor
end

function Fake:length()
  return #self.chars
end

function Fake:position(cursor)
  local char = assert(self.all[cursor.counter], 'UnknownElement')
  while self.gone[char] do
    char = self.gone[char]
  end
  for i, one in ipairs(self.chars) do
    if one == char then
      return i - 1
    end
  end
  return #self.chars
end

function Fake:is_at(cursor, at)
  local char = self.chars[at + 1]
  return char ~= nil and char.counter == cursor.counter
end

-- What another has done comes by a session: `coming` has functions that edit.
function Fake:feed()
  for _, call in ipairs(self.coming) do
    call(self)
  end
  self.coming = {}
  return '', false, nil
end

function Fake:begin()
  return ''
end

function Fake:stop() end

function Fake.has_stopped()
  return false
end

return Fake
