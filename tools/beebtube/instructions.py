"""The instructions of both processors, as `beebtube dis` writes them."""

# A row for each upper half of the opcode. An opcode that the processor does not have is empty.
_6502 = """\
BRK|ORA (&{1},X)||||ORA &{1}|ASL &{1}||PHP|ORA #&{1}|ASL A|||ORA &{2}|ASL &{2}|
BPL &{r}|ORA (&{1}),Y||||ORA &{1},X|ASL &{1},X||CLC|ORA &{2},Y||||ORA &{2},X|ASL &{2},X|
JSR &{2}|AND (&{1},X)|||BIT &{1}|AND &{1}|ROL &{1}||PLP|AND #&{1}|ROL A||BIT &{2}|AND &{2}|ROL &{2}|
BMI &{r}|AND (&{1}),Y||||AND &{1},X|ROL &{1},X||SEC|AND &{2},Y||||AND &{2},X|ROL &{2},X|
RTI|EOR (&{1},X)||||EOR &{1}|LSR &{1}||PHA|EOR #&{1}|LSR A||JMP &{2}|EOR &{2}|LSR &{2}|
BVC &{r}|EOR (&{1}),Y||||EOR &{1},X|LSR &{1},X||CLI|EOR &{2},Y||||EOR &{2},X|LSR &{2},X|
RTS|ADC (&{1},X)||||ADC &{1}|ROR &{1}||PLA|ADC #&{1}|ROR A||JMP (&{2})|ADC &{2}|ROR &{2}|
BVS &{r}|ADC (&{1}),Y||||ADC &{1},X|ROR &{1},X||SEI|ADC &{2},Y||||ADC &{2},X|ROR &{2},X|
|STA (&{1},X)|||STY &{1}|STA &{1}|STX &{1}||DEY||TXA||STY &{2}|STA &{2}|STX &{2}|
BCC &{r}|STA (&{1}),Y|||STY &{1},X|STA &{1},X|STX &{1},Y||TYA|STA &{2},Y|TXS|||STA &{2},X||
LDY #&{1}|LDA (&{1},X)|LDX #&{1}||LDY &{1}|LDA &{1}|LDX &{1}||TAY|LDA #&{1}|TAX||LDY &{2}|LDA &{2}|LDX &{2}|
BCS &{r}|LDA (&{1}),Y|||LDY &{1},X|LDA &{1},X|LDX &{1},Y||CLV|LDA &{2},Y|TSX||LDY &{2},X|LDA &{2},X|LDX &{2},Y|
CPY #&{1}|CMP (&{1},X)|||CPY &{1}|CMP &{1}|DEC &{1}||INY|CMP #&{1}|DEX||CPY &{2}|CMP &{2}|DEC &{2}|
BNE &{r}|CMP (&{1}),Y||||CMP &{1},X|DEC &{1},X||CLD|CMP &{2},Y||||CMP &{2},X|DEC &{2},X|
CPX #&{1}|SBC (&{1},X)|||CPX &{1}|SBC &{1}|INC &{1}||INX|SBC #&{1}|NOP||CPX &{2}|SBC &{2}|INC &{2}|
BEQ &{r}|SBC (&{1}),Y||||SBC &{1},X|INC &{1},X||SED|SBC &{2},Y||||SBC &{2},X|INC &{2},X|"""
# What the 65C02 has besides.
_65C02 = {
    0x04: "TSB &{1}", 0x0C: "TSB &{2}", 0x12: "ORA (&{1})", 0x14: "TRB &{1}", 0x1A: "INC A",
    0x1C: "TRB &{2}", 0x32: "AND (&{1})", 0x34: "BIT &{1},X", 0x3A: "DEC A", 0x3C: "BIT &{2},X",
    0x52: "EOR (&{1})", 0x5A: "PHY", 0x64: "STZ &{1}", 0x72: "ADC (&{1})", 0x74: "STZ &{1},X",
    0x7A: "PLY", 0x7C: "JMP (&{2},X)", 0x80: "BRA &{r}", 0x89: "BIT #&{1}", 0x92: "STA (&{1})",
    0x9C: "STZ &{2}", 0x9E: "STZ &{2},X", 0xB2: "LDA (&{1})", 0xD2: "CMP (&{1})", 0xDA: "PHX",
    0xF2: "SBC (&{1})", 0xFA: "PLX",
}
# For each opcode of each part: its form, with {1} a byte after it, {2} two, and {r} where a branch goes.
_FORMS = _6502.replace("\n", "|").split("|")
_NMOS = [form or "byte &%02X" % code for code, form in enumerate(_FORMS)]
INSTRUCTIONS = {"6502": _NMOS, "65c02": [_65C02.get(code, form) for code, form in enumerate(_NMOS)]}


def text_of(part: str, data: bytes) -> str:
    """The instruction of three bytes, without the place to which a branch goes."""
    return INSTRUCTIONS[part][data[0]].format(
        "", f"{data[1]:02X}", f"{data[2]:02X}{data[1]:02X}", r="")
