"""Whether a run with officers is the model's: each tree is legal, the limit trees and the halt tree
too, and each officer and each session did what its file and its reads say."""
from .desk import Officer, run_desk
from .journal import Fault, read_journal
from .judge import Wrong, demand, judge_session, judge_tree
from .limits import Limits


def folds(limits):
    """The fold of each tree: sums, the halt tree's largest, and a smallest for each sum."""
    sums = limits.halt_tree()
    return ["sum"] * sums + ["max"] + ["min"] * sums


def first_fault(limits, officers):
    """What is told of the first officer's file with a fault; None where there is none."""
    for number, data in enumerate(officers):
        fault = Officer(limits, data).fault
        if fault:
            return "officer {} fault {} row {}\n".format(number, *fault)
    return None


def judge_run(limit_text, officers, inputs, venues, clients, journal, told, status):
    """Raises `Wrong` where a run of officers and then sessions isn't the model's. Gives all acts."""
    limits = Limits(limit_text).counted(len(officers) + len(inputs))
    fault = first_fault(limits, officers)
    if fault:
        demand((status, told) == (3, fault), "an officer's fault", fault, status, told)
        return []
    try:
        acts, lines = read_journal(journal)
    except Fault as wrong:
        raise Wrong("no journal", *wrong.args) from wrong
    demand(len(acts) == len(officers) + len(inputs), "how many sessions", len(acts))
    demand(max(lines, default=0) < len(folds(limits)), "too many trees")
    for tree, fold in enumerate(folds(limits)):
        judge_tree(acts, lines.get(tree, []), tree, fold, None)
    for number, (data, own) in enumerate(zip(officers, acts)):
        demand(own == Officer(limits, data).acts(), "an officer's acts", number)
    ends = [judge_session(number, limits, *one, run=run_desk) for number, one in
            enumerate(zip(inputs, acts[len(officers):], venues, clients), len(officers))]
    wanted = 0 if all(word == "whole" for word, _ in ends) else 4
    demand((status, told) == (wanted, f"status {wanted}\n"), "the status", status, told)
    return acts
