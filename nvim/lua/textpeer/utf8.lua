-- UTF-8 as the engine takes it: the encodings of Unicode scalar values, each the shortest. Neovim lets more through, as
-- lone bytes, surrogates and numbers past U+10FFFF.
local M = {}

local byte = string.byte

-- What takes the place of bytes that are no UTF-8.
M.REPLACEMENT = '\239\191\189'

-- How many bytes the character at `at` has, from 1; nil where there is none.
local function length_at(text, at)
  local a = byte(text, at)
  if a < 0x80 then
    return 1
  end
  local b = byte(text, at + 1)
  if a < 0xC2 or a > 0xF4 or not b then
    return nil
  end
  local low, high = 0x80, 0xBF
  if a == 0xE0 then
    low = 0xA0
  elseif a == 0xED then
    high = 0x9F
  elseif a == 0xF0 then
    low = 0x90
  elseif a == 0xF4 then
    high = 0x8F
  end
  if b < low or b > high then
    return nil
  end
  local wanted = a < 0xE0 and 2 or a < 0xF0 and 3 or 4
  for i = at + 2, at + wanted - 1 do
    local c = byte(text, i)
    if not c or c < 0x80 or c > 0xBF then
      return nil
    end
  end
  return wanted
end

-- The text with each byte that belongs to no character replaced by U+FFFD, and how many were.
function M.clean(text)
  local at = text:find('[\128-\255]')
  if not at then
    return text, 0
  end
  local parts, from, replaced = {}, 1, 0
  while at <= #text do
    local length = length_at(text, at)
    if length then
      at = at + length
    else
      parts[#parts + 1] = text:sub(from, at - 1)
      parts[#parts + 1] = M.REPLACEMENT
      replaced = replaced + 1
      at = at + 1
      from = at
    end
  end
  if replaced == 0 then
    return text, 0
  end
  parts[#parts + 1] = text:sub(from)
  return table.concat(parts), replaced
end

-- Whether the byte, of a text that is UTF-8, is within a character and not its first.
local function continues(value)
  return value ~= nil and value >= 0x80 and value < 0xC0
end

-- Whether a character of the text begins after `at` bytes, or the text ends there.
function M.is_boundary(text, at)
  return not continues(byte(text, at + 1))
end

-- How many characters a text has.
function M.count(text)
  if not text:find('[\128-\255]') then
    return #text
  end
  local count = 0
  for i = 1, #text do
    if not continues(byte(text, i)) then
      count = count + 1
    end
  end
  return count
end

-- How many bytes come before the character that is `count` after the one at `from` bytes (0); all of them where there are
-- fewer.
function M.bytes(text, count, from)
  for i = (from or 0) + 1, #text do
    if not continues(byte(text, i)) then
      if count == 0 then
        return i - 1
      end
      count = count - 1
    end
  end
  return #text
end

return M
