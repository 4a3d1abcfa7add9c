"""Why gcc refuses some statements whose operands have room by asmck's rules."""
import itertools
import re

from support.asm_placements import REGISTERS, alternative_count, root

# Letters of numbers that take no address of an object.
PLAIN_NUMBERS = "nIJKMN"
# Where the letters of registers let a value be.
LETTERS = {name[1] if name[2] == "x" else name[1].upper(): [{name}] for name in REGISTERS[:6]}
LETTERS |= {"q": [{name} for name in REGISTERS[:4]], "r": [{name} for name in REGISTERS], "A": [{"eax", "edx"}]}
LETTERS["Q"] = LETTERS["q"]


def kinds_of(allowed):
    """The kinds that an alternative allows by its letters."""
    allows = {"r": allowed.registers or allowed.pair, "m": allowed.memory, "i": allowed.numbers is not None}
    return [kind for kind, there in allows.items() if there]


def allows(operand, kind):
    return any(kind in kinds_of(allowed) for allowed in operand.alternatives)


def numbered(statement, interface):
    """The number of each operand with the operand and its interface, flag outputs aside."""
    for k, (operand, told) in enumerate(zip(statement.operands, interface.operands, strict=True)):
        if not told.flag:
            yield k, operand, told


def ties_in(statement, interface, a):
    """The outputs that the inputs are tied to in an alternative."""
    tied = [told.alternatives[a].tied for _, _, told in numbered(statement, interface)]
    return [output for output in tied if output is not None]


def roots(interface, k):
    """What is allowed for an operand in each alternative, where its output is if it is tied."""
    return [root(interface, a, k) for a in range(len(interface.operands[k].alternatives))]


def has_flag_and_alternatives(statement, interface):
    return any(it.flag for it in interface.operands) and alternative_count(interface) > 1


def has_early_memory(statement, interface):
    """Whether an in-out has an early alternative without a register: gcc makes it an input's."""
    return any(
        told.role == "InOut"
        and any(allowed.early and "r" not in kinds_of(allowed) for allowed in told.alternatives)
        for _, _, told in numbered(statement, interface)
    )


def has_divided_in_out(statement, interface):
    """Whether an in-out may be in a register in one alternative, and in memory alone in another."""
    return any(
        told.role == "InOut"
        and allows(told, "r")
        and any(kinds_of(allowed) == ["m"] for allowed in told.alternatives)
        for _, _, told in numbered(statement, interface)
    )


def has_value_in_memory(statement, interface):
    """Whether an input that is no lvalue may be in memory, or where an output is, and in no register."""
    return any(
        told.role == "In"
        and not it.expression.lvalue
        and not allows(told, "r")
        and any(allowed.memory for allowed in roots(interface, k))
        for k, it, told in numbered(statement, interface)
    )


def is_variable(operand, a):
    """Whether the operand is no constant that the number letters of an alternative take."""
    letters = operand.alternatives[a]
    plain = any(it in PLAIN_NUMBERS for it in letters) and not any(it in "ig" for it in letters)
    return not operand.expression.constant or (operand.expression.constant == "address" and plain)


def has_variable_number(statement, interface):
    """Whether each shape with room has a number that is no constant."""
    return all(
        any(kinds[k] == "i" and is_variable(it, a) for k, it, _ in numbered(statement, interface))
        for a, kinds in interface.rooms
    )


def has_divided_tie(statement, interface):
    """Whether an input is tied in one alternative, and may be in memory or a number in another."""
    return any(
        any(it.tied is not None for it in told.alternatives) and (allows(told, "m") or allows(told, "i"))
        for _, _, told in numbered(statement, interface)
    )


def has_no_lvalue_output(statement, interface):
    return any(not it.expression.lvalue for it in statement.outputs)


def has_tie_in_memory(statement, interface):
    return any(
        allowed.tied is not None and root(interface, a, k).memory
        for k, _, told in numbered(statement, interface)
        for a, allowed in enumerate(told.alternatives)
    )


def has_two_ties(statement, interface):
    """Whether two inputs are tied to one output in one alternative."""
    for a in range(alternative_count(interface)):
        ties = ties_in(statement, interface, a)
        if len(ties) > len(set(ties)):
            return True
    return False


def has_nameless_byte(statement, interface):
    """Whether a byte may be in a register without a name for its low byte."""
    return any(
        told.size == 1
        and it.modifier != "k"
        and any(allowed.registers - set(REGISTERS[:4]) for allowed in roots(interface, k))
        for k, it, told in numbered(statement, interface)
    )


def users(statement, interface, a, places):
    """What takes registers where operands have these places: where, and whether it is written, read and early."""
    for k, it, told in numbered(statement, interface):
        allowed = told.alternatives[a]
        if places[k] == "m":
            for _ in range(it.expression.registers):
                yield LETTERS["r"], False, True, False
        elif places[k] in LETTERS and allowed.tied is None:
            read = told.role != "Out" or k in ties_in(statement, interface, a)
            yield LETTERS[places[k]], told.role != "In", read, allowed.early


def has_room(left, taken, clobbers):
    """Whether the users that are left find registers beside those that are taken."""
    if not left:
        return True
    choices, writes, reads, early = left[0]
    for choice in choices:
        if choice & clobbers:
            continue
        clash = any(
            choice & other and (writes and written or reads and read or early and read or reads and soon)
            for other, written, read, soon in taken
        )
        if not clash and has_room(left[1:], [*taken, (choice, writes, reads, early)], clobbers):
            return True
    return False


def places_in(operand, told, a):
    """What gcc may choose for an operand in an alternative: a letter of registers, memory, or a number."""
    kinds = kinds_of(told.alternatives[a])
    letters = set(operand.alternatives[a].replace("g", "r")) & set(LETTERS) if "r" in kinds else ()
    return sorted(letters) + [kind for kind in kinds if kind != "r"]


def choices(statement, interface):
    """All choices of an alternative and of a place in it for each operand. A tied one has its output's."""
    for a in range(alternative_count(interface)):
        ties = [told.alternatives[a].tied for told in interface.operands]
        lists = [
            places_in(it, told, a) if tie is None and not told.flag else [None]
            for it, told, tie in zip(statement.operands, interface.operands, ties, strict=True)
        ]
        for places in itertools.product(*lists):
            yield a, [place if tie is None else places[tie] for place, tie in zip(places, ties, strict=True)]


def has_crowded_choice(statement, interface):
    """Whether there is a choice without registers for all operands and addresses. gcc may choose so.

    Of several letters gcc takes one, where no class of registers of its own has those of all.
    """
    return not all(
        has_room(list(users(statement, interface, a, places)), [], interface.clobbers)
        for a, places in choices(statement, interface)
    )


def always(statement, interface):
    return True


# The message, the reason's name, and what has to be so of the statement.
REASONS = (
    ("lvalue required in", "an output that is no lvalue", has_no_lvalue_output),
    ("differ in number of alternatives", "a flag output beside several alternatives", has_flag_and_alternatives),
    ("input operand constraint contains ‘&’", "an early in-out in memory alone", has_early_memory),
    ("memory input .* not directly addressable|impossible constraint in", "no lvalue in memory", has_value_in_memory),
    ("impossible constraint in", "an in-out in a register or in memory by alternative", has_divided_in_out),
    ("impossible constraint in", "a tie, or memory or a number, by alternative", has_divided_tie),
    ("inconsistent operand constraints|impossible constraint in", "two inputs tied to one output", has_two_ties),
    ("inconsistent operand constraints|impossible constraint in", "a tie to memory", has_tie_in_memory),
    ("inconsistent operand constraints|impossible constraint", "a number that is no constant", has_variable_number),
    ("unsupported size for integer register", "a byte in a register without a byte name", has_nameless_byte),
    ("operand has impossible constraints", "a choice of letters without registers for all", has_crowded_choice),
    ("unable to find a register to spill", "gcc finds no register to spill", always),
)


def reason(statement, interface, message):
    """The name of the reason for which gcc refuses the statement; None where none of them explains its message."""
    for words, name, holds in REASONS:
        if re.search(words, message) and holds(statement, interface):
            return name
    return None
