"""The commands of tools/plan."""
import argparse
import os
import sys
from contextlib import redirect_stdout
from pathlib import Path

from .aligned import aligned
from .answers import ORDER, ask, ask_lanes, explained, line_before, lines_met, lines_of, parse, question, reason
from .columns import word
from .comparing import compare, report
from .files import is_text, load, plan_in, read_bytes, write_whole
from .gates import gate_lanes, gate_words
from .image import encode
from .joinable import join, join_text
from .joins import GROWING
from .lateness import assumed
from .listing import listing
from .loads import hides, hinders, loads, without_queues
from .ordering import in_order
from .pairs import PlanFile
from .picture.drawing import View, near, picture
from .taprio import command as taprio_command
from .taprio import devices
from .troubles import BadValue, Trouble, meant, trouble
from .writing import write_text


CHECKER = os.environ.get("PLANCHECK") or str(Path(__file__).resolve().parents[2] / "crates/plancheck/out/plancheck")


def main(arguments):
    """Runs one command; 0, or 1 where the input is bad (and nothing is written)."""
    options = parser().parse_args(arguments)
    try:
        return options.run(options) or 0
    except Trouble as bad:
        print(bad, file=sys.stderr)
        return 1
    except BrokenPipeError:
        os.dup2(os.open(os.devnull, os.O_WRONLY), sys.stdout.fileno())
        return 0


def parser():
    top = argparse.ArgumentParser(prog="plan", description="Plans as text, image, listing and picture.")
    commands = top.add_subparsers(required=True, metavar="COMMAND")
    command = _command(commands, "image", run_image, "write the image of a text")
    command.add_argument("plan", help="text; with --in-order also an image")
    command.add_argument("out", help="image to write, or -")
    _takes_order(command)
    command = _command(commands, "text", run_text, "print a plan as text")
    command.add_argument("plan", help="image or text")
    _takes_order(command)
    command = _command(commands, "list", run_list, "print a plan's rows and what follows from them")
    command.add_argument("plan", help="image or text")
    command = _command(commands, "loads", run_loads, "print each job's pieces against its budget and each core's against the cycle")
    command.add_argument("plan", help="image or text")
    _takes_order(command)
    _asks_checker(command, default=CHECKER)
    command = _command(commands, "check", run_check, "ask the checker, and print its answer in words")
    command.add_argument("plan", help="image or text")
    _takes_order(command)
    _asks_checker(command, default=CHECKER)
    command = _command(commands, "gates", run_gates, "print the gate lists of a plan's links, or the commands that set them")
    command.add_argument("plan", help="image or text")
    command.add_argument("link", nargs="?", help="only this link, by name or row")
    command.add_argument("--taprio", metavar="DEV", help="print commands of tc for this device, or these, joined by commas; {link} stands for a link's row")
    _takes_order(command)
    _asks_checker(command, default=CHECKER)
    command = _command(commands, "join", run_join, "join a second plan to a first, and ask the checker about both and about the result")
    command.add_argument("first", help="image or text")
    command.add_argument("second", help="image or text")
    command.add_argument("out", help="text to write")
    command.add_argument("--shared", type=a_count, required=True, metavar="N", help="so many leading tasks are the same in both plans")
    _takes_order(command)
    _asks_checker(command, default=CHECKER)
    command = _command(commands, "compare", run_compare, "tell which VCPUs differ between two plans, and whether another one notices")
    command.add_argument("first", help="image or text")
    command.add_argument("second", help="image or text")
    _takes_order(command)
    _asks_checker(command, default=CHECKER)
    command = _command(commands, "picture", run_picture, "draw a plan as SVG")
    command.add_argument("plan", help="image or text")
    command.add_argument("out", help="SVG to write, or -")
    _takes_order(command)
    command.add_argument("--answer", type=an_answer, metavar="'N T R'", help="the checker's line, as printed")
    _asks_checker(command, default=None)
    command.add_argument("--from", dest="first", type=int, metavar="TICK", help="first tick to draw")
    command.add_argument("--to", dest="last", type=int, metavar="TICK", help="where to stop drawing")
    command.add_argument("--near", type=int, metavar="TICKS", help="draw what the answer names and so many ticks around it")
    command.add_argument("--lanes", metavar="NAMES", help="draw only these cores and links, joined by commas")
    command.add_argument("--width", type=int, metavar="PIXELS", help="width of the lanes")
    return top


def _command(commands, name, run, text):
    command = commands.add_parser(name, help=text, description=text)
    command.set_defaults(run=run)
    return command


def _takes_order(command):
    order = "by start, then by their words (question 32)"
    command.add_argument("--in-order", action="store_true", help=f"take windows, pieces and frames {order}")


def _asks_checker(command, default):
    otherwise = "without it, $PLANCHECK, then crates/plancheck/out/plancheck" if default else "without it, none"
    command.add_argument("--plancheck", metavar="PATH", default=default, help=f"the checker to ask; {otherwise}")


def an_answer(text):
    return parse(text)


def a_count(text):
    try:
        return word(text)
    except BadValue as bad:
        raise argparse.ArgumentTypeError(str(bad)) from None


def run_image(options):
    data = read_bytes(options.plan)
    if not is_text(data) and not (data and options.in_order):
        raise trouble(options.plan, "is no text" + (" but an image" if data else ": it is empty"))
    write_whole(options.out, encode(ordered(options, plan_in(options.plan, data))))


def ordered(options, plan):
    """The plan with its rows in order where the options ask for it."""
    return in_order(plan) if options.in_order else plan


def run_text(options):
    print(write_text(ordered(options, load(options.plan))), end="")


def run_list(options):
    print(listing(load(options.plan)), end="")


def run_loads(options):
    """Prints the answer, then the loads where a draft can be made from the plan, else the row that keeps it from that."""
    data, plan = image_and_plan(options, options.plan)
    answer = ask(options.plancheck, data)
    tell(plan, answer)
    if plan and hides(answer):
        tell_row(plan, answer)
        answer = ask(options.plancheck, encode(without_queues(plan)))
        if hinders(answer):
            tell(plan, answer, "With every stream in queue 0: ")
    if plan and not hinders(answer):
        print(f"\n{loads(plan)}", end="")
        return 0
    if plan:
        tell_row(plan, answer)
    print("No loads: they need yes to questions 1 to 10 and 32, as a draft does.")
    return 1


def run_check(options):
    """Prints the answer in words; an image that cannot be read has an answer too."""
    data, plan = image_and_plan(options, options.plan)
    accepted = check(options, data, plan)
    if plan and accepted:
        for line in assumed(plan):
            print(line)
    return 0 if accepted else 1


def run_gates(options):
    """Prints gate lists made from what the checker prints of an accepted plan's links. Commands are printed alone, so that they can be run."""
    data, plan = image_and_plan(options, options.plan)
    answer, lanes = ask_lanes(options.plancheck, data)
    with redirect_stdout(sys.stdout if options.taprio is None else sys.stderr):
        accepted = told(plan, answer)
        if not (plan and accepted):
            print("No gate lists: the plan has to be accepted.")
            return 1
    file = PlanFile(options.plan, plan)
    file.refuse_raw("take")
    links, lists = chosen_links(options, plan), blamed_on(options.plancheck, gate_lanes, plan, lanes)
    (tell_gates if options.taprio is None else tell_commands)(options, file, links, lists)
    return 0


def chosen_links(options, plan):
    """The rows of all links, or of the one that is asked for."""
    rows = range(len(plan.rows["link"]))
    if options.link is None:
        return rows
    link = blamed_on(options.plan, plan.names.number, "link", options.link)
    if link not in rows:
        raise trouble(options.plan, f"there is no link {link}; it has {len(rows)}")
    return [link]


def blamed_on(file, read, *values):
    """What is read from values; a bad one is a trouble with a file."""
    try:
        return read(*values)
    except BadValue as bad:
        raise trouble(file, str(bad)) from None


def tell_gates(options, file, links, lists):
    print(f"\ncycle {file.plan.cycle}; gate lists: {len(links)}")
    for link in links:
        print(f"\n{gate_words(file, link, lists[link])}")


def tell_commands(options, file, links, lists):
    named = blamed_on(options.plan, devices, file.plan, links, options.taprio)
    for link, device in zip(links, named):
        for line in taprio_command(file, link, device, lists[link]):
            print(line)


def check(options, data, plan, whose=""):
    """Whether the checker accepts an image; tells its answer, and the row of a refused plan."""
    return told(plan, ask(options.plancheck, data), whose)


def told(plan, answer, whose=""):
    """Whether an answer accepts a plan; tells it, and the row of a refused plan."""
    tell(plan, answer, whose)
    if plan and not answer.accepted:
        tell_row(plan, answer)
    return answer.accepted


def accepted_plans(options, *paths):
    """The plans of files, asked about in turn; none where one is refused or cannot be read, and then no later one is asked about."""
    plans = []
    for path in paths:
        data, plan = image_and_plan(options, path)
        if not check(options, data, plan, f"{path}: ") or not plan:
            return []
        plans.append(PlanFile(path, plan))
    return plans


def run_join(options):
    """Asks what a join asks, in its order, and writes the joined plan where that comes to be asked about."""
    if options.out == "-":
        raise trouble(options.out, "is no file; the answers are printed, so write the text to one")
    modes = accepted_plans(options, options.first, options.second)
    if not modes:
        print("Nothing is written: both plans have to be accepted.")
        return 1
    found = join(*modes, options.shared)
    write_whole(options.out, join_text(*modes, options.shared, found.plan).encode())
    tell_join(*modes, found)
    return 0 if check(options, encode(found.plan), found.plan, f"{options.out}: ") else 1


def tell_join(first, second, found):
    """How many rows are the first's, the second's, both's and the joined plan's, and which names of the second are others."""
    counts = [[kind, *(len(plan.rows[kind]) for plan in (first.plan, second.plan, found.plan)), found.found[kind]] for kind in GROWING]
    for line in aligned([["rows", "first", "second", "joined", "in both"], *(line for line in counts if line[3])], right=range(1, 5)):
        print(f"  {line}")
    for rename in found.renames:
        why = f"it is that row of {first.file}" if rename.found else f"{first.file} has another {rename.old}"
        print(f"{second.place(rename.kind, rename.row)}: {rename.kind} {rename.old} is called {rename.new}: {why}")


def run_compare(options):
    """Asks about both plans, and tells what differs and who notices; 0 where the premises are met and no other VCPU notices."""
    plans = accepted_plans(options, options.first, options.second)
    if not plans:
        print("Not compared: both plans have to be accepted.")
        return 1
    found = compare(*plans)
    for line in report(found):
        print(line)
    return 0 if found.upheld else 1


def tell(plan, answer, whose=""):
    """The answer in words, and the question that it says no to."""
    print(f"{whose}{explained(plan, answer)}")
    if question(answer):
        print(question(answer))


def tell_row(plan, answer):
    """The lines of the row that an answer names, and what to do about rows out of order."""
    why, before = reason(plan, answer), line_before(plan, answer)
    if why:
        print(why)
    for place in lines_of(plan, answer):
        print(f"{place}: this row")
    for place in lines_met(plan, answer):
        print(f"{place}: the row it meets")
    if before:
        print(f"{before}: it belongs before this row")
    if answer.number == ORDER:
        print("--in-order takes all rows in order.")


def image_and_plan(options, path):
    """The bytes to check and the plan in them, or None where the image cannot be read."""
    data = read_bytes(path)
    try:
        plan = ordered(options, plan_in(path, data))
    except Trouble:
        if is_text(data):
            raise
        return data, None
    return encode(plan) if is_text(data) or options.in_order else data, plan


def run_picture(options):
    plan, answer = ordered(options, load(options.plan)), options.answer
    if options.plancheck and not answer:
        answer = ask(options.plancheck, encode(plan))
    drawn = picture(plan, Path(options.plan).stem, answer, view_of(options, plan, answer))
    write_whole(options.out, drawn.encode())


def view_of(options, plan, answer):
    """The view that options ask for; lanes and ticks have to be there."""
    names = options.lanes.split(",") if options.lanes else None
    known = plan.names.all["core"] + plan.names.all["link"]
    for name in names or ():
        if name not in known:
            raise trouble(options.plan, f"no core or link is named '{name}'" + meant(name, known))
    around = near(plan, answer, options.near) if options.near is not None and answer else None
    first, last = around or (options.first or 0, options.last)
    if first < 0 or last is not None and last <= first:
        raise trouble(options.plan, f"no ticks from {first} to {last}")
    return View(first, last, names, options.width)
