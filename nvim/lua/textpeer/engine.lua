-- The engine by LuaJIT's ffi: the shared editors of ffi/textpeer.h, as objects. A refusal is raised as a table with its
-- `status` and its `name`, as { status = 801, name = 'Busy' }.
local ffi = require('ffi')
local utf8 = require('textpeer.utf8')

local M = {}

ffi.cdef([[
typedef struct tp_shared { void *at; } tp_shared;
uint32_t tp_shared_open(const char *path, size_t path_len, const char *actor, void **at);
uint32_t tp_shared_create(const char *path, size_t path_len, const char *id, const char *actor, void **at);
void tp_shared_close(tp_shared shared);
size_t tp_shared_answer(tp_shared *shared, uint8_t *out, size_t room);
void tp_shared_id(tp_shared *shared, uint8_t *id);
size_t tp_shared_length(tp_shared *shared);
size_t tp_shared_change_count(tp_shared *shared);
typedef struct tp_splice { size_t at; size_t del; size_t len; } tp_splice;
uint32_t tp_shared_edit_many(tp_shared *shared, const tp_splice *splices, size_t count, const char *texts,
                             size_t texts_len, uint64_t time, const char *message, size_t message_len, size_t *len);
uint32_t tp_shared_text(tp_shared *shared, size_t *len);
uint32_t tp_shared_heads(tp_shared *shared, size_t *len);
uint32_t tp_shared_cursor(tp_shared *shared, size_t at, uint64_t *counter, uint8_t *actor);
uint32_t tp_shared_cursor_position(tp_shared *shared, uint64_t counter, const char *actor, size_t *position);
uint32_t tp_shared_begin(tp_shared *shared, uint32_t role, size_t *len);
uint32_t tp_shared_feed(tp_shared *shared, const char *bytes, size_t bytes_len, size_t *len, uint32_t *going,
                        uint64_t *entered);
void tp_shared_end(tp_shared *shared);
uint32_t tp_differences_since(tp_shared *shared, const char *heads, size_t heads_len, tp_splice *splices, size_t room,
                              size_t *count, size_t *len);
]])

-- The names of refusals, by their statuses.
-- statuses: made of ffi/statuses.txt by tools/statuses
local NAMES = {
  [1] = 'OutOfMemory', [2] = 'NoLink', [3] = 'NoChange', [4] = 'BadText', [5] = 'BadLengths',
  [101] = 'OutOfRange', [102] = 'CounterLimit', [103] = 'TooManyOps', [104] = 'TooManyHeads', [105] = 'UnknownHead',
  [106] = 'UnknownElement', [107] = 'PendingFull', [108] = 'HashTaken', [109] = 'OutOfMemory', [110] = 'OtherDocument',
  [111] = 'TooLong', [112] = 'Full', [113] = 'NotKept',
  [201] = 'BadMessage', [202] = 'BadChange', [203] = 'TooManyHeads', [204] = 'PendingFull', [205] = 'OutOfMemory', [206]
  = 'OtherDocument', [207] = 'NotKept',
  [301] = 'BadMagic', [302] = 'Truncated', [303] = 'BadDigest', [304] = 'Damaged', [305] = 'Refused', [306] = 'Io',
  [307] = 'OutOfMemory', [308] = 'NoHeader',
  [401] = 'Version', [402] = 'Short', [403] = 'Trailing', [404] = 'ZeroSeqOrStart', [405] = 'BadUtf8', [406] =
  'DepsOrder', [407] = 'NoRecords', [408] = 'BadTag', [409] = 'EmptyRun', [410] = 'Limit', [411] = 'OutOfMemory', [412]
  = 'NoRun',
  [501] = 'ActorInUse', [502] = 'JournalFailed', [503] = 'Stopped', [504] = 'TooManyLinks', [505] = 'JournalNotEmpty',
  [509] = 'OutOfMemory',
  [602] = 'Frame', [603] = 'OtherDocument', [604] = 'Version', [605] = 'Unexpected', [608] = 'OutOfMemory',
  [701] = 'OtherDocument', [702] = 'Version', [703] = 'Malformed', [704] = 'TooMany', [705] = 'Other',
  [801] = 'Busy', [802] = 'Io', [803] = 'OutOfMemory',
}
-- end of statuses

local Refusal = {
  __tostring = function(refusal)
    return refusal.name
  end,
}

-- The refusal with the status. In a session all from 700 on is the number that the other side sent, which may be any
-- byte.
function M.refusal(status, in_session)
  local name = NAMES[status] or ('status ' .. status)
  if status >= 700 and (status < 800 or in_session) then
    name = 'refused by the server as ' .. (status < 800 and NAMES[status] or 'number ' .. status - 700)
  end
  return setmetatable({ status = status, name = name }, Refusal)
end

local function done(status)
  if status ~= 0 then
    error(M.refusal(status), 0)
  end
end

local library

local NAME = 'libtextpeer.so.0'

-- Where the library is, unless it is given by $TEXTPEER_LIB or g:textpeer_library: in the plugin's clone, as
-- `ffi/build` makes it, or else in the release; where there is neither, as where the plugin is installed, the system
-- finds it by its name.
local function place()
  local told = vim.env.TEXTPEER_LIB or vim.g.textpeer_library
  if told then
    return told
  end
  local top = vim.fn.fnamemodify(debug.getinfo(1, 'S').source:sub(2), ':p:h:h:h:h')
  for _, folder in ipairs({ '/ffi/out/', '/dist/x86_64-linux/' }) do
    if vim.fn.filereadable(top .. folder .. NAME) == 1 then
      return top .. folder .. NAME
    end
  end
  return NAME
end

local function loaded()
  if not library then
    local ok, found = pcall(ffi.load, place())
    if not ok then
      error(('the engine, which ffi/build makes, is not there (%s)'):format(found), 0)
    end
    if not pcall(function() return found.tp_differences_since end) then
      error(('the engine at %s is older than the plugin; ffi/build makes it anew'):format(place()), 0)
    end
    library = found
  end
  return library
end

local Engine = {}
Engine.__index = Engine

local length, number, going = ffi.new('size_t[1]'), ffi.new('uint64_t[1]'), ffi.new('uint32_t[1]')

-- Where splices are written, how many there are, and for how many there is room: as many as there ever were at once.
local written, count, room = ffi.new('tp_splice[?]', 64), ffi.new('size_t[1]'), 64

-- Sixteen bytes that nobody else has.
local function drawn()
  return assert(vim.loop.random(16))
end

-- A shared editor of the journal in the file, under an actor of its own. With `anew` it begins the journal of a new document.
function M.open(path, anew)
  local lib, at = loaded(), ffi.new('void *[1]')
  if anew then
    done(lib.tp_shared_create(path, #path, drawn(), drawn(), at))
  else
    done(lib.tp_shared_open(path, #path, drawn(), at))
  end
  local handle = ffi.new('tp_shared')
  handle.at = at[0]
  return setmetatable({ lib = lib, handle = handle }, Engine)
end

-- Ends it and frees the file. Its other calls aren't made afterwards.
function Engine:close()
  if self.handle then
    self.lib.tp_shared_close(self.handle)
    self.handle = nil
  end
end

-- The last answer, which has as many bytes as the call said.
function Engine:answer()
  local count = tonumber(length[0])
  local out = ffi.new('uint8_t[?]', math.max(count, 1))
  return ffi.string(out, self.lib.tp_shared_answer(self.handle, out, count))
end

-- The identifier of the document, 16 bytes.
function Engine:id()
  local id = ffi.new('uint8_t[16]')
  self.lib.tp_shared_id(self.handle, id)
  return ffi.string(id, 16)
end

-- How many characters the text has.
function Engine:length()
  return tonumber(self.lib.tp_shared_length(self.handle))
end

-- How many changes there are.
function Engine:change_count()
  return tonumber(self.lib.tp_shared_change_count(self.handle))
end

-- Makes one change of splices { at, count, text }: each deletes `count` characters from `at` on, and inserts a text there, by
-- the places of the text that those before it leave. Its time grows with their number where they rise. The change is on the
-- disk then. Past 65,536 characters that come or go it is refused as TooManyOps.
function Engine:edit(splices)
  local list, texts = ffi.new('tp_splice[?]', math.max(#splices, 1)), {}
  for i, splice in ipairs(splices) do
    local one = list[i - 1]
    one.at, one.del, one.len = splice.at, splice.count, #splice.text
    texts[i] = splice.text
  end
  local text = table.concat(texts)
  done(self.lib.tp_shared_edit_many(self.handle, list, #splices, text, #text, os.time(), '', 0, length))
end

function Engine:text()
  done(self.lib.tp_shared_text(self.handle, length))
  return self:answer()
end

-- The hashes of the heads, 32 bytes each.
function Engine:heads()
  done(self.lib.tp_shared_heads(self.handle, length))
  local bytes, heads = self:answer(), {}
  for at = 1, #bytes, 32 do
    heads[#heads + 1] = bytes:sub(at, at + 31)
  end
  return heads
end

-- What changed since the text at the heads: rising pieces { at, count, added, text }. Each puts the `added` characters
-- of a text in the place of `count` ones from `at` on, by the places of the text at the heads. What both texts have is in none of
-- them, and no two touch. Of a few changes near the end the engine finds them without going over the whole text.
function Engine:differences_since(heads)
  local bytes = table.concat(heads)
  local function ask()
    done(self.lib.tp_differences_since(self.handle, bytes, #bytes, written, room, count, length))
  end
  ask()
  if count[0] > room then
    room = tonumber(count[0])
    written = ffi.new('tp_splice[?]', room)
    ask()
  end
  local texts, pieces, from, grown = self:answer(), {}, 0, 0
  for i = 1, tonumber(count[0]) do
    local splice = written[i - 1]
    local text = texts:sub(from + 1, from + tonumber(splice.len))
    local piece = { at = tonumber(splice.at) - grown, count = tonumber(splice.del), added = utf8.count(text), text = text }
    from, grown = from + #text, grown + piece.added - piece.count
    pieces[i] = piece
  end
  return pieces
end

local actor = ffi.new('uint8_t[16]')

-- The character at a place: its counter, which is below 2^48, and its actor. The characters of one text that is inserted have
-- consecutive counters.
function Engine:element(at)
  done(self.lib.tp_shared_cursor(self.handle, at, number, actor))
  return tonumber(number[0]), ffi.string(actor, 16)
end

-- A cursor at the character at a place.
function Engine:cursor(at)
  local counter, of = self:element(at)
  return { counter = counter, actor = of }
end

-- Whether the cursor's character is at the place.
function Engine:is_at(cursor, at)
  return self.lib.tp_shared_cursor(self.handle, at, number, actor) == 0
    and tonumber(number[0]) == cursor.counter
    and ffi.string(actor, 16) == cursor.actor
end

-- How many characters are before the cursor's, which may be gone.
function Engine:position(cursor)
  done(self.lib.tp_shared_cursor_position(self.handle, cursor.counter, cursor.actor, length))
  return tonumber(length[0])
end

-- Begins a session as the side that connected. What is to be sent at once.
function Engine:begin()
  done(self.lib.tp_shared_begin(self.handle, 0, length))
  return self:answer()
end

-- Takes bytes of the other side: what is to be sent, also where the session broke off; whether it goes on; and why it broke
-- off, if it did.
function Engine:feed(bytes)
  local status = self.lib.tp_shared_feed(self.handle, bytes, #bytes, length, going, number)
  local refusal = status ~= 0 and M.refusal(status, true) or nil
  return self:answer(), going[0] == 1, refusal
end

-- Whether the refusal says that the journal's device failed: nothing but `close` is done then.
function Engine.has_stopped(refusal)
  return refusal.status == 502 or refusal.status == 503
end

-- Ends a session that is going on.
function Engine:stop()
  self.lib.tp_shared_end(self.handle)
end

return M
