"""replay.py PLAN: for each line of standard input, a list of choices as `dine replay --choices` has it, prints what
`dine replay` prints."""
import sys

from dine import Plan, World


def main() -> None:
    with open(sys.argv[1]) as file:
        plan = Plan(file.read())
    for line in sys.stdin:
        choices = [int(word) for word in line.split(",") if word.strip()]
        with World(plan) as world:
            print(world.replay_text(choices))


if __name__ == "__main__":
    main()
