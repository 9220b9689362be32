"""Problems, rosters and logs that scripts of this folder begin with: the examples, and small texts of each kind."""
import os

from running import EXAMPLES


def of_lines(*lines):
    return "\n".join(lines) + "\n"


def example(name):
    with open(os.path.join(EXAMPLES, name + ".txt")) as file:
        return file.read()


TWO_DAYS = of_lines("2", "1", "1", "1 0", "D 360 480 1 1", "1 1", "1 1", "0 0")
BOTH_DAYS = of_lines("2", "1", "1", "1 1", "D 360 480 1 1", "1 1", "1 1", "0 0")
TOO_MANY = of_lines("1", "2", "1", "3", "D 360 480 1 2", "1 2", "1 2", "0 0")
TWO_OF_FOUR = of_lines("1", "4", "1", "2", "D 360 480 1 1", "2 2", "1 4", "0 0")
RANGES = of_lines("1", "4", "1", "1..2", "D 360 480 1 1", "2 2", "1 4", "0 0")
TWOS = of_lines("1", "6", "1", "3", "D 360 480 2 2", "2 2", "2 2", "0 0")
THREE_OF_FIVE = of_lines("1", "5", "1", "3", "D 360 480 2 2", "1 2", "2 2", "0 0")
ONE_CELL = of_lines("1", "1", "1", "1", "D 360 480 1 7", "1 1", "1 7", "0 0")
EIGHT_DAYS = of_lines("8", "1", "1", "1 1 1 1 0 0 0 0", "D 360 480 1 7", "1 7", "1 7", "0 0")
NO_DAY = of_lines("2", "1", "1", "0 0", "D 360 480 1 1", "1 1", "1 1", "0 0")
THREE_WEEKS = of_lines("2", "3", "1", "1 1", "D 360 480 3 5", "1 5", "1 5", "0 0")
ENDLESS = of_lines("2", "1", "2", "1 0", "0 1", "D 360 480 1 7", "N 1320 480 1 7", "1 7", "1 7", "0 0")
LONG_BLOCKS = of_lines("2", "1", "1", "1 0", "D 360 480 1 31", "1 1", "1 1", "0 0")
LONGEST = of_lines("7", "600", "1", "0 0 0 0 0 0 0", "D 360 480 1 7", "1 7", "1 7", "0 0")
COMMENTED = (
    "## Length of the schedule\r\n2\r\n## Employees\r\n1\r\n1\r\n1\t0\r\nD 360 480 Day 1 1\r\n1 1\r\n1 1\r\n0 0\r\n"
)
ONE_WEEK = of_lines(
    "7", "1", "3", "1 1 0 0 0 0 0", "0 0 1 1 1 0 0", "0 0 0 0 0 0 0",
    "D 360 480 2 7", "A 840 480 2 6", "N 1320 480 2 5", "2 4", "4 7", "3 0", "N D", "N A", "A D",
)

# At most one weekend can be free.
THREE_LONG_WEEKS = of_lines("7", "3", "1", "2 2 2 2 2 2 2", "D 360 480 6 7", "2 4", "6 7", "0 0")
EMPTY_WEEK = of_lines("7", "2", "1", "0 0 0 0 0 0 0", "D 360 480 1 7", "1 14", "1 7", "0 0")

# Small problems, on which every command is quick.
SMALL = [
    TWO_DAYS, BOTH_DAYS, TOO_MANY, TWO_OF_FOUR, RANGES, TWOS, THREE_OF_FIVE, ONE_CELL, NO_DAY, THREE_WEEKS, ENDLESS,
    LONG_BLOCKS, COMMENTED, ONE_WEEK, EIGHT_DAYS, THREE_LONG_WEEKS, EMPTY_WEEK,
]

# Problems with a roster of each.
ROSTERS = [
    (TWO_DAYS, "D -\n"),
    (ENDLESS, "D N\n"),
    (THREE_WEEKS, "D -\n- -\n- D\n"),
    (NO_DAY, "D -\n"),
    (ONE_WEEK, "D D A A A - -\n"),
    (THREE_LONG_WEEKS, "D D D D D D D\n- - - D D D D\nD D D - - - -\n"),
    (example("nine_weeks"), example("nine_weeks_roster")),
    (example("nine_weeks"), example("broken_roster")),
    (example("control_room"), example("control_room_roster")),
    (example("ward"), example("ward_roster")),
    (example("sixty_weeks"), example("sixty_weeks_roster")),
]

SPLIT = of_lines("rwsp-log 1", "rules 1 2 3 4", "split 1 1 D", "dead 1 1 7 rules 1 2 3 4", "dead 1 1 7 rules 1 2 3 4")
TURN = of_lines("rwsp-log 2", "rules 1 2 3 4 7", "turn D 1", "dead 1 1 7 rules 1 2 3 4")

# Problems with a log of each.
LOGS = [
    (BOTH_DAYS, of_lines("rwsp-log 1", "rules 1 7 8", "bound 1 1 1 rules 1 weights 1 D 1 2 D 1")),
    (TWO_OF_FOUR, of_lines("rwsp-log 1", "rules 1 3 4 7", "bound 1 1 2 rules 1 3 4 weights 1 D 1")),
    (RANGES, of_lines("rwsp-log 1", "rules 1 3 4 7", "bound 1 1 2 rules 1 3 4 weights 1 D 1")),
    (TOO_MANY, of_lines("rwsp-log 1", "rules 7", "day 1 - over")),
    (TWOS, SPLIT),
    (TWOS, TURN),
    (ONE_CELL, of_lines("rwsp-log 1", "rules 3 5", "split 1 1 D", "window 5 1 1 8", "window 3 1 1 2")),
    (THREE_OF_FIVE, of_lines("rwsp-log 2", "rules 7", "turn D 1", "split 2 1 D", "open", "open")),
    (LONG_BLOCKS, of_lines("rwsp-log 1", "rules 1", "dead 1 1 2 rules 1")),
    (NO_DAY, of_lines("rwsp-log 2", "rules 7", "turn D 1", "open")),
    (example("clinic"), example("clinic_log")),
    (example("clinic"), example("clinic_all_rules_log")),
]

NO_SECOND_WEEKEND = of_lines("rwsp-free 1", "rules 3 5 6", "goal 2", "free 1 1 rules 3 5 6 weights")

# Problems with a free log of each.
FREES = [
    (THREE_LONG_WEEKS, NO_SECOND_WEEKEND),
    (THREE_LONG_WEEKS, of_lines("rwsp-free 1", "rules", "goal 4", "few")),
    (THREE_LONG_WEEKS, of_lines("rwsp-free 1", "rules 12", "goal 2", "split 1 6 -", "open", "day 6 - short")),
    (EMPTY_WEEK, of_lines("rwsp-free 1", "rules", "goal 3", "few")),
    (ONE_WEEK, of_lines("rwsp-free 1", "rules 19", "goal 1", "split 1 6 D", "few", "free 1 1 rules 1 2 weights 7 - 1")),
    (TWO_DAYS, of_lines("rwsp-free 1", "rules 7", "goal 0", "day 1 - over")),
]

NONE_TO_THREE = of_lines(
    "weeks 2 none", "rwsp-log 1", "rules 7", "day 1 - over",
    "weeks 3 none", "rwsp-log 1", "rules 1 7", "bound 1 1 1 rules 1 weights 1 D 1", "none to 3",
)
LEAST_SIX = of_lines(
    "weeks 4 none", "rwsp-log 1", "rules 1 3 4 7", "bound 1 1 2 rules 1 3 4 weights 1 D 1",
    "weeks 5 none", "rwsp-log 1", "rules 1 3 4 7", "bound 1 1 3 rules 1 3 4 weights 1 D 1",
    "weeks 6 roster", "D", "-", "-", "D", "-", "-",
)

# Problems with a text on the least crew of each.
STAFFS = [
    (TWOS, NONE_TO_THREE),
    (TWO_OF_FOUR, LEAST_SIX),
    (RANGES, of_lines("weeks 1 undecided", "rwsp-log 2", "rules 7", "turn D 1", "open")),
    (TWO_DAYS, of_lines("weeks 1 roster", "D -")),
    (ONE_WEEK, of_lines("weeks 1 roster", "D D A A A - -")),
    (example("nine_weeks"), "weeks 9 roster\n" + example("nine_weeks_roster")),
    (example("clinic"), "weeks 2 none\n" + example("clinic_log") + "none to 2\n"),
]

# Command lines that are over at once: what they read is a small problem, or isn't there.
LINES = [
    "show F", "plan F", "plan F --budget 5", "check F ABSENT", "check F ABSENT --workers 3", "verify F ABSENT", "reduce F ABSENT",
    "trial 7 3", "trial 999999999 5", "crew F ABSENT 2024-02-28 3", "crew F ABSENT 9999-12-31 1", "crew F ABSENT 2024-02-28 3 1",
    "staff F 1 3", "staff F 1 3 --budget 5", "check-staff F ABSENT", "check-staff ABSENT T",
    "best F", "best F --budget 5", "check-free F ABSENT", "check-free ABSENT G",
]
