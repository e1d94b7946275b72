"""Holds the archive's word operations against the SMT solver z3.

smt.py DRIVER [ARGS]: asks the driver for every sub at eight widths, on words at the edges and on random ones, divisors
not zero. For each sub and width the solver is asked whether some answer differs from its own term in QF_BV: it must say
unsat. Then it is asked the same with one bit of one answer changed: it must say sat, which shows that the question can
fail. Prints the counts and, last, one line that sums them up; ends with 1 at any other answer.
"""

import random
import struct
import subprocess
import sys

WIDTHS = [1, 7, 8, 16, 31, 32, 63, 64]
RANDOM_PAIRS = 400

# The solver's term for each sub, 1 to 19: from 14 on it is a truth, which becomes one bit.
TERMS = ["bvadd", "bvsub", "bvmul", "bvudiv", "bvsdiv", "bvurem", "bvsrem", "bvand", "bvor", "bvxor",
         "bvshl", "bvlshr", "bvashr", "=", "distinct", "bvult", "bvule", "bvslt", "bvsle"]
SUBS = range(1, len(TERMS) + 1)
DIVISIONS = (4, 5, 6, 7)
FIRST_TRUTH = 14


def edges(width):
    """The words of a width at which an operation is likely to go wrong."""
    sign, ones = 1 << (width - 1), (1 << width) - 1
    words = {0, 1, 2, 3, sign - 1, sign, sign + 1, ones - 1, ones, ones // 3, width - 1, width, width + 1}
    return sorted(word for word in words if 0 <= word <= ones)


def pairs(sub, width):
    """The operands to ask for: each edge with each, then random pairs, every other one with a short right operand."""
    words = edges(width)
    asked = [(a, b) for a in words for b in words]
    for i in range(RANDOM_PAIRS):
        short = random.randrange(width) if i % 2 else 0
        asked.append((random.getrandbits(width), random.getrandbits(width) >> short))
    return [(a, b) for a, b in asked if not (sub in DIVISIONS and b == 0)]


def ask_driver(command, requests):
    """The driver's answers to requests (sub, width, a, b), each (kind, value)."""
    packed = b"".join(struct.pack("<IIQQ", *request) for request in requests)
    run = subprocess.run(command, input=packed, stdout=subprocess.PIPE)
    if run.returncode != 0 or len(run.stdout) != 16 * len(requests):
        sys.exit(f"smt: the driver ended with {run.returncode}; {len(requests)} requests got {len(run.stdout)} bytes")
    return [(kind, value) for kind, _, value in struct.iter_unpack("<IIQ", run.stdout)]


def result_width(sub, width):
    return 1 if sub >= FIRST_TRUTH else width


def differs(sub, width, a, b, value):
    """The formula that the solver's term isn't the value."""
    term = f"({TERMS[sub - 1]} (_ bv{a} {width}) (_ bv{b} {width}))"
    if sub >= FIRST_TRUTH:
        term = f"(ite {term} (_ bv1 1) (_ bv0 1))"
    return f"(distinct {term} (_ bv{value} {result_width(sub, width)}))"


def ask_solver(questions):
    """Whether each list of formulas has one that holds: sat or unsat, by a solver run of its own for all lists."""
    lines = ["(set-logic QF_BV)"]
    for formulas in questions:
        lines += ["(push 1)", "(assert (or false", *formulas, "))", "(check-sat)", "(pop 1)"]
    run = subprocess.run(["z3", "-smt2", "-in"], input="\n".join(lines) + "\n", stdout=subprocess.PIPE, text=True)
    said = run.stdout.split()
    if run.returncode != 0 or len(said) != len(questions):
        sys.exit(f"smt: z3 ended with {run.returncode} and said {run.stdout[:500]}")
    return said


def main(command):
    random.seed(20181005)
    groups = [(sub, width) for sub in SUBS for width in WIDTHS]
    requests = [(sub, width, a, b) for sub, width in groups for a, b in pairs(sub, width)]
    answers = ask_driver(command, requests)

    faults = []
    held = {group: [] for group in groups}
    for (sub, width, a, b), (kind, value) in zip(requests, answers):
        # a value of too many bits would be cut by the solver's numeral, so it is a fault by itself
        if kind != 1 or value >> result_width(sub, width):
            faults.append(f"sub {sub} width {width} of {a} and {b}: kind {kind} value {value}")
        held[sub, width].append((a, b, value))

    questions, controls = [], []
    for sub, width in groups:
        rows = held[sub, width]
        questions.append([differs(sub, width, *row) for row in rows])
        place = random.randrange(len(rows))
        a, b, value = rows[place]
        wrong = value ^ 1 << random.randrange(result_width(sub, width))
        controls.append(questions[-1][:place] + [differs(sub, width, a, b, wrong)] + questions[-1][place + 1:])

    said = ask_solver(questions)
    said_of_controls = ask_solver(controls)
    for (sub, width), verdict, of_control in zip(groups, said, said_of_controls):
        if verdict != "unsat":
            faults.append(f"sub {sub} ({TERMS[sub - 1]}) width {width}: z3 says {verdict}, so some answer differs")
        if of_control != "sat":
            faults.append(f"sub {sub} ({TERMS[sub - 1]}) width {width}: z3 says {of_control} to an answer made wrong")
    for sub in SUBS:
        count = sum(len(held[sub, width]) for width in WIDTHS)
        print(f"sub {sub:2} {TERMS[sub - 1]:8} {count:5} answers at {len(WIDTHS)} widths")
    for fault in faults[:20]:
        print(fault)
    if faults:
        sys.exit(f"smt: {len(faults)} faults")
    print(f"{len(requests)} answers as z3 has them, {len(groups)} questions unsat; "
          f"{len(groups)} wrong answers made, all sat")


if __name__ == "__main__":
    if len(sys.argv) < 2:
        sys.exit("usage: smt.py DRIVER [ARGS]")
    main(sys.argv[1:])
