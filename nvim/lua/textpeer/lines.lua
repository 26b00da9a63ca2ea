-- A text as lines, with places by bytes, by characters, and by row and column.
--
-- The text is the lines with a newline between each two: an empty last line is a newline at its end. Rows, columns and
-- places count from 0, columns and `byte` in bytes. Places by bytes may also be one past the text, as Neovim's events
-- have them: these see a newline after the last line too.
--
-- The row of the last place that was looked for is marked, with the bytes and characters before it, and how many
-- characters are before the last column there. The next one is counted from there, so that places that rise take one walk.
local utf8 = require('textpeer.utf8')

local Lines = {}
Lines.__index = Lines

-- The lines of a text.
function Lines.split(text)
  local lines, from = {}, 1
  while true do
    local at = text:find('\n', from, true)
    if not at then
      lines[#lines + 1] = text:sub(from)
      return lines
    end
    lines[#lines + 1] = text:sub(from, at - 1)
    from = at + 1
  end
end

-- Of a list of lines, which it takes.
function Lines.of(list)
  local sizes, bytes, chars = {}, 0, -1
  for i = 1, #list do
    sizes[i] = utf8.count(list[i])
    bytes = bytes + #list[i] + 1
    chars = chars + sizes[i] + 1
  end
  local mark = { row = 0, bytes = 0, chars = 0, column = 0, count = 0 }
  return setmetatable({ list = list, sizes = sizes, bytes = bytes, chars = chars, mark = mark }, Lines)
end

function Lines:text()
  return table.concat(self.list, '\n')
end

-- How many characters the text has.
function Lines:length()
  return self.chars
end

-- How many bytes the text has, with a newline after its last line.
function Lines:size()
  return self.bytes
end

-- Marks another row, up to the one after the last.
local function mark_row(self, row)
  local mark, list, sizes = self.mark, self.list, self.sizes
  local at, bytes, chars = mark.row, mark.bytes, mark.chars
  if at == row then
    return mark
  end
  while at > row do
    bytes, chars = bytes - #list[at] - 1, chars - sizes[at] - 1
    at = at - 1
  end
  while at < row do
    at = at + 1
    bytes, chars = bytes + #list[at] + 1, chars + sizes[at] + 1
  end
  mark.row, mark.bytes, mark.chars, mark.column, mark.count = row, bytes, chars, 0, 0
  return mark
end

-- The row and the column of a place by bytes; nil where the text ends before.
function Lines:place_of_byte(at)
  if at < 0 or at > self.bytes then
    return nil
  end
  local mark, list = self.mark, self.list
  local row, bytes = mark.row, mark.bytes
  while bytes > at do
    bytes = bytes - #list[row] - 1
    row = row - 1
  end
  while row < #list and bytes + #list[row + 1] < at do
    row = row + 1
    bytes = bytes + #list[row] + 1
  end
  mark_row(self, row)
  return row, at - bytes
end

-- The row and the column of a place by characters; the end of the text where that comes before.
function Lines:place_of_char(at)
  local mark, list, sizes = self.mark, self.list, self.sizes
  if at >= self.chars then
    return #list - 1, #list[#list]
  end
  local row, chars = mark.row, mark.chars
  while chars > at do
    chars = chars - sizes[row] - 1
    row = row - 1
  end
  while chars + sizes[row + 1] < at do
    row = row + 1
    chars = chars + sizes[row] + 1
  end
  mark = mark_row(self, row)
  local line = list[row + 1]
  if sizes[row + 1] == #line then
    return row, at - chars
  end
  if at - chars < mark.count then
    mark.column, mark.count = 0, 0
  end
  mark.column = utf8.bytes(line, at - chars - mark.count, mark.column)
  mark.count = at - chars
  return row, mark.column
end

-- The place by characters of a row and a column; a column within a character is its beginning. A row past the last one is
-- past the text.
function Lines:char_of(row, column)
  local mark = mark_row(self, math.min(row, #self.list))
  local line = self.list[row + 1]
  if not line then
    return mark.chars
  end
  column = math.min(column, #line)
  if self.sizes[row + 1] == #line then
    return mark.chars + column
  end
  while not utf8.is_boundary(line, column) do
    column = column - 1
  end
  if column < mark.column then
    mark.column, mark.count = 0, 0
  end
  mark.count = mark.count + utf8.count(line:sub(mark.column + 1, column))
  mark.column = column
  return mark.chars + mark.count
end

-- The text between two places.
function Lines:between(row, column, to_row, to_column)
  if row == to_row then
    return (self.list[row + 1] or ''):sub(column + 1, to_column)
  end
  local parts = { self.list[row + 1]:sub(column + 1) }
  for i = row + 2, to_row do
    parts[#parts + 1] = self.list[i]
  end
  parts[#parts + 1] = (self.list[to_row + 1] or ''):sub(1, to_column)
  return table.concat(parts, '\n')
end

-- Puts the lines in the place of `count` rows from `row` on.
local function splice(list, row, count, new)
  local moved = #new - count
  if moved == 0 then
    for i = 1, #new do
      list[row + i] = new[i]
    end
    return
  end
  local size = #list
  if moved > 0 then
    for i = size, row + count + 1, -1 do
      list[i + moved] = list[i]
    end
  else
    for i = row + count + 1, size do
      list[i + moved] = list[i]
    end
    for i = size + moved + 1, size do
      list[i] = nil
    end
  end
  for i = 1, #new do
    list[row + i] = new[i]
  end
end

-- Takes the place of `count` rows from `row` on: the lines, with their sizes in characters, bytes and characters together.
-- What is there then to have all as before.
local function put_rows(self, row, count, list, sizes)
  local was, was_sizes, bytes, chars = {}, {}, 0, 0
  for i = 1, count do
    was[i], was_sizes[i] = self.list[row + i], self.sizes[row + i]
    bytes, chars = bytes - #was[i], chars - was_sizes[i]
  end
  for i = 1, #list do
    bytes, chars = bytes + #list[i], chars + sizes[i]
  end
  local grown = #list - count
  mark_row(self, row)
  splice(self.list, row, count, list)
  splice(self.sizes, row, count, sizes)
  self.bytes, self.chars = self.bytes + bytes + grown, self.chars + chars + grown
  self.mark.column, self.mark.count = 0, 0
  return { row = row, count = #list, list = was, sizes = was_sizes }
end

-- Adds the lines of a text to a list of lines and one of their sizes.
local function add_lines(list, sizes, text)
  for _, line in ipairs(Lines.split(text)) do
    list[#list + 1], sizes[#sizes + 1] = line, utf8.count(line)
  end
end

-- Puts a text in the place of each piece { row, column, to_row, to_column, count, added, text }, which replaces `count`
-- characters by `added` ones. Pieces rise and don't overlap, and all their places are of the text before them. What
-- `restore` takes to have it as before.
function Lines:replace(pieces)
  local old, list, sizes, first = self.list, {}, {}, pieces[1].row
  local row, i, piece = first, 1, pieces[1]
  while piece do
    while row < piece.row do
      row = row + 1
      list[#list + 1], sizes[#sizes + 1] = old[row], self.sizes[row]
    end
    -- Each piece that begins in the row in which the one before it ends.
    local parts, column, size, one_line = {}, 0, self.sizes[row + 1], true
    while piece and piece.row == row do
      parts[#parts + 1] = old[row + 1]:sub(column + 1, piece.column)
      parts[#parts + 1] = piece.text
      one_line = one_line and piece.to_row == row and not piece.text:find('\n', 1, true)
      size = size + piece.added - piece.count
      row, column, i = piece.to_row, piece.to_column, i + 1
      piece = pieces[i]
    end
    row = row + 1
    parts[#parts + 1] = old[row]:sub(column + 1)
    if one_line then
      list[#list + 1], sizes[#sizes + 1] = table.concat(parts), size
    else
      add_lines(list, sizes, table.concat(parts))
    end
  end
  return put_rows(self, first, row - first, list, sizes)
end

-- Takes back the last `replace`.
function Lines:restore(was)
  put_rows(self, was.row, was.count, was.list, was.sizes)
end

-- Whether these are the lines.
function Lines:equals(list)
  if #list ~= #self.list then
    return false
  end
  for i = 1, #list do
    if list[i] ~= self.list[i] then
      return false
    end
  end
  return true
end

return Lines
