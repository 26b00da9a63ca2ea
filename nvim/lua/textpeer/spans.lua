-- What a row of Neovim's events has replaced, as spans of bytes: { os, oe, ns, ne } says that the bytes from os to oe of the
-- old text became those from ns to ne of the new one. Spans rise, and neither touch nor overlap; outside them both texts are
-- the same.
--
-- An event says where something changed, and not always by what: in a command with several of them the buffer may not have
-- come to its text yet. So only places are kept, and the text is read once the command is done.
--
-- The spans before the last replacement are in `front`, those after it in `back`, the last one first; each has `size`, its
-- bytes in the new text. So a replacement takes a time that grows with the spans between it and the one before it: `passed` is
-- how many these were together.
local Spans = {}
Spans.__index = Spans

function Spans.new()
  return setmetatable({ front = {}, back = {}, front_growth = 0, total = 0, passed = 0 }, Spans)
end

function Spans:is_empty()
  return #self.front == 0 and #self.back == 0
end

-- By how much the new text is longer.
function Spans:growth()
  return self.total
end

local function growth_of(span)
  return span.size - (span.oe - span.os)
end

-- Puts the spans that end before a place of the new text in front, and all others in the back.
local function part(self, at)
  local front, back, growth = self.front, self.back, self.front_growth
  local before = #front
  while #front > 0 and front[#front].oe + growth >= at do
    local span = table.remove(front)
    growth = growth - growth_of(span)
    back[#back + 1] = span
  end
  while #back > 0 and back[#back].os + growth + back[#back].size < at do
    local span = table.remove(back)
    growth = growth + growth_of(span)
    front[#front + 1] = span
  end
  self.front_growth = growth
  self.passed = self.passed + math.abs(#front - before)
end

-- `removed` bytes of the new text so far, from `at` on, became `added` ones.
function Spans:add(at, removed, added)
  part(self, at)
  local back, growth, to = self.back, self.front_growth, at + removed
  local from, ends = at, to
  local os, oe = at - growth, to - growth
  while #back > 0 and back[#back].os + growth <= to do
    local span = table.remove(back)
    if span.os + growth < from then
      from, os = span.os + growth, span.os
    end
    local span_ends = span.os + growth + span.size
    growth = growth + growth_of(span)
    ends = math.max(to, span_ends)
    oe = span_ends > to and span.oe or to - growth
  end
  local span = { os = os, oe = oe, size = ends - from + added - removed }
  self.front[#self.front + 1] = span
  self.front_growth = self.front_growth + growth_of(span)
  self.total = self.total + added - removed
end

-- The spans, rising.
function Spans:list()
  local list, growth = {}, 0
  local function put(span)
    local ns = span.os + growth
    list[#list + 1] = { os = span.os, oe = span.oe, ns = ns, ne = ns + span.size }
    growth = growth + growth_of(span)
  end
  for i = 1, #self.front do
    put(self.front[i])
  end
  for i = #self.back, 1, -1 do
    put(self.back[i])
  end
  return list
end

return Spans
