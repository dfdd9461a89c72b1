def total(text):
    result = here = 0
    place = 0
    while place < len(text):
        byte = text[place]
        if byte == 44:
            result += here
            here = 0
        else:
            here = here * 10 + byte - 48
        place += 1
    return result + here


everything = 0
for _ in range(NUMBER):
    everything += total(b"17,4,256,39,8,1024,65,7,512,90,33,2,11,128,5,76,49,3,260,18")
print(everything)
