"""What the operations of arithmetic (RFC 9669, section 4.1) and the conditions of jumps (4.3) are called, by their codes."""

NAMES = ["ADD", "SUB", "MUL", "DIV", "OR", "AND", "LSH", "RSH", "NEG", "MOD", "XOR", "MOV", "ARSH"]
CONDITIONS = {1: "JEQ", 2: "JGT", 3: "JGE", 4: "JSET", 5: "JNE", 6: "JSGT", 7: "JSGE", 10: "JLT", 11: "JLE", 12: "JSLT", 13: "JSLE"}
