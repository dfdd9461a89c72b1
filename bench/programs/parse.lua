local function total(text)
  local result, here = 0, 0
  for place = 1, #text do
    local byte = text:byte(place)
    if byte == 44 then
      result = result + here
      here = 0
    else
      here = here * 10 + byte - 48
    end
  end
  return result + here
end

local all = 0
for _ = 1, NUMBER do
  all = all + total('17,4,256,39,8,1024,65,7,512,90,33,2,11,128,5,76,49,3,260,18')
end
print(all)
