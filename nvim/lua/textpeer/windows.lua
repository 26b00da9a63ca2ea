-- What each window that shows a buffer shows of it, by characters: its cursor, and its first line.
local api = vim.api

local M = {}

-- Holds a place: by the character there, or by that before it where text is being inserted and at the end of the text.
local function hold(at, inserting, length, engine)
  -- The first line that a window shows may be past the last one until it is drawn.
  at = math.min(at, length)
  local after = inserting or at == length
  if after and at == 0 then
    return { at = 0 }
  end
  return { cursor = engine:cursor(after and at - 1 or at), after = after }
end

-- Where a place that was held is now. Where its character is gone it is where that was.
local function held_at(place, engine)
  if not place.cursor then
    return place.at
  end
  local at = engine:position(place.cursor)
  return place.after and engine:is_at(place.cursor, at) and at + 1 or at
end

-- Holds what the windows show, while the buffer has these lines and the engine their text.
function M.hold(buffer, lines, engine)
  local held, length = {}, lines:length()
  local current, mode = api.nvim_get_current_win(), api.nvim_get_mode().mode:sub(1, 1)
  for _, window in ipairs(vim.fn.win_findbuf(buffer)) do
    local row, column = unpack(api.nvim_win_get_cursor(window))
    local top = vim.fn.getwininfo(window)[1].topline
    held[#held + 1] = {
      window = window,
      cursor = hold(lines:char_of(row - 1, column), window == current and mode == 'i', length, engine),
      top = hold(lines:char_of(top - 1, 0), false, length, engine),
    }
  end
  return held
end

-- Shows it again, now that both have other lines.
function M.release(held, lines, engine)
  for _, one in ipairs(held) do
    if api.nvim_win_is_valid(one.window) then
      local row, column = lines:place_of_char(held_at(one.cursor, engine))
      local was_row, was_column = unpack(api.nvim_win_get_cursor(one.window))
      if was_row ~= row + 1 or was_column ~= column then
        api.nvim_win_set_cursor(one.window, { row + 1, column })
      end
      local top = lines:place_of_char(held_at(one.top, engine)) + 1
      if vim.fn.getwininfo(one.window)[1].topline ~= top then
        api.nvim_win_call(one.window, function()
          vim.fn.winrestview({ topline = top })
        end)
      end
    end
  end
end

return M
