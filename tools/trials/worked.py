"""The worked auction, its programs, which are those of cases, and texts that the tests change."""

from trials.cases import read_case

RULES = """rules,1,1,,
category,A,2,10,1
category,B,1,5,1
bidder,Alpha,9,2,
bidder,Beta,9,1,
bidder,Gamma,9,1,
"""
ALPHA = "Alpha,A,B\n30,1,0\n50,2,1\n28,1,1\n"
BETA = "Beta,A,B\n20,1,0\n45,3,0\n"
GAMMA = "Gamma,A,B\n12,0,1\n"


def output(case):
    return read_case(case).stdout.decode()


# The programs of no form, of Gamma's form alone, as another tool may write that, of the first bid of Alpha's form, of its first
# two, since the third is dominated, and of all three forms, of which Beta's second bid asks for more than there is.
NO_COLUMN = output("no_form")
ONE_COLUMN = output("one_form")
MADE_ELSEWHERE = read_case("check_made_elsewhere").stdin.decode()
ONE_BID_OF_ALPHA = output("dominated_by_smaller_package")
TWO_BIDS_OF_ALPHA = output("one_form_with_a_dominated_bid")
FOUR_COLUMNS = output("three_forms")

SOLUTION_OF_ALL = "X1_1 0.999999\nX2_1 1\nX3_1 1\n"
WINNERS = output("map_three_winners")


def rules_and(*forms):
    return "%rules\n" + RULES + "".join("%form\n" + form for form in forms)


def auction(groups, *solutions):
    """All three forms, these groups and solutions."""
    return (
        rules_and(ALPHA, BETA, GAMMA)
        + "%groups\n"
        + groups
        + "".join("%solution\n" + text for text in solutions)
    )
