#!/usr/bin/env python3
"""Cases for the program run_aspif_read, from a file of vectors with right answers.

Use: read_aspif.py VECTORS FOLDER

VECTORS has a case on each line, as JSON: `text`, `room` (how many words the buffer has) and `result`: the words, or `["refused", number, place]`.
Writes FOLDER/stdin, for each case the room, a space, the text's length, a newline and the text; and FOLDER/stdout, the lines that the program
must print: the number of words and the words, or the refusal, and after a slash how many words of the buffer are as before.
"""
import json
import sys


def line(case):
    result, room = case["result"], case["room"]
    if result[:1] == ["refused"]:
        return "refused %d %d / %d\n" % (result[1], result[2], room)
    words = "".join(" %d" % w for w in result)
    return "wrote %d:%s / %d\n" % (len(result), words, room - len(result))


def main():
    vectors, folder = sys.argv[1:]
    with open(vectors, encoding="ascii") as f:
        cases = [json.loads(l) for l in f]
    with open(folder + "/stdin", "w", encoding="latin-1", newline="\n") as f:
        for case in cases:
            f.write("%d %d\n%s" % (case["room"], len(case["text"]), case["text"]))
    with open(folder + "/stdout", "w", encoding="ascii", newline="\n") as f:
        f.writelines(line(case) for case in cases)


main()
