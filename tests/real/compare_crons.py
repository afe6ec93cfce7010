"""Compares crontabs of cron with what `from-cron` makes of them, minute by minute of a year.

    compare_crons.py FROM_CRON FOLDER    the examples here, the crontabs of this machine, and 300 random lines

FOLDER gets what `from-cron` printed, for a reader of crontabs to try. Two readings are written down here, apart from each
other: that of cron, by Debian's crontab(5) and by what its cron was seen to do, and that of POSIX by its letter. The year
has a 29 February.
"""
import datetime
import fnmatch
import glob
import os
import pwd
import random
import re
import subprocess
import sys

DAYS = [datetime.date(2028, 1, 1) + datetime.timedelta(days) for days in range(366)]
BOUNDS = [(0, 59), (0, 23), (1, 31), (1, 12), (0, 7)]
MONTHS = "jan feb mar apr may jun jul aug sep oct nov dec".split()
WEEKDAYS = "sun mon tue wed thu fri sat".split()
KINDS = {
    "@yearly": "0 0 1 1 *", "@annually": "0 0 1 1 *", "@monthly": "0 0 1 * *", "@weekly": "0 0 * * 0",
    "@daily": "0 0 * * *", "@midnight": "0 0 * * *", "@hourly": "0 * * * *",
}
NO_EQUIVALENT = {"MAILTO", "MAILFROM", "CONTENT_TYPE", "CONTENT_TRANSFER_ENCODING", "SHELL", "CRON_TZ", "LOGNAME"}


class Bad(Exception):
    pass


def weekday_of(day):
    return day.isoweekday() % 7


# Debian's cron, by crontab(5).

def cron_number(word, index):
    names = {3: dict(zip(MONTHS, range(1, 13))), 4: dict(zip(WEEKDAYS, range(7)))}.get(index, {})
    if word.lower() in names:
        return names[word.lower()]
    if not re.fullmatch("[0-9]+", word):
        raise Bad(word)
    return int(word)


def cron_values(text, index):
    low, high = BOUNDS[index]
    values = set()
    for element in text.split(","):
        parts = element.split("/")
        step = 1
        if len(parts) == 2 and ("-" in parts[0] or parts[0] == "*") and parts[1].isdigit():
            step = int(parts[1])
        elif len(parts) != 1:
            raise Bad(element)
        if parts[0] == "*":
            first, last = low, high
        else:
            ends = [cron_number(word, index) for word in parts[0].split("-")]
            if len(ends) > 2:
                raise Bad(element)
            first, last = ends[0], ends[-1]
        if step == 0 or not low <= first <= last <= high:
            raise Bad(element)
        values |= set(range(first, last + 1, step))
    return {value % 7 for value in values} if index == 4 else values


def cron_minutes(fields):
    """The minutes of a day and the days of the year."""
    minutes, hours, days, months, weekdays = (cron_values(text, index) for index, text in enumerate(fields))
    restricted = "*" not in fields[2] and "*" not in fields[4]

    def is_due(day):
        if day.month not in months:
            return False
        if restricted:
            return day.day in days or weekday_of(day) in weekdays
        return day.day in days and weekday_of(day) in weekdays

    return {60 * hour + minute for hour in hours for minute in minutes}, {day for day in DAYS if is_due(day)}


# A byte of a command, or a backslash with the byte that it takes this meaning from.
TOKEN = r"(?:\\[\\%]|\\(?![\\%])|[^\\%])"


def cron_command(command):
    """What cron's shell runs, and its standard input. In the command two backslashes are one, as cron itself has it."""
    found = re.fullmatch(rf"({TOKEN}*)(?:%(.*))?", command)
    text = re.sub(r"\\([\\%])", r"\1", found.group(1))
    lines = re.sub(r"\\%|%", lambda sign: "%" if len(sign.group()) == 2 else "\n", found.group(2) or "")
    return text, lines + "\n" if lines and not lines.endswith("\n") else lines


class CronLine:
    """A line of cron's: nothing, a variable, an entry, or a line that has no equivalent or is none."""

    def __init__(self, line, user_column):
        self.entry = self.variable = None
        self.named = False
        rest = line.lstrip(" \t")
        found = re.match(r"([\"']?)([A-Za-z_]\w*)\1[ \t]*=[ \t]*(.*)", rest)
        if rest == "" or rest.startswith("#"):
            return
        if found:
            value = found.group(3).rstrip(" \t")
            if len(value) > 1 and value[0] in "\"'" and value[-1] == value[0]:
                value = value[1:-1]
            elif value == "":
                self.named = True
                return
            self.named = found.group(2) in NO_EQUIVALENT and (found.group(2), value) != ("SHELL", "/bin/sh")
            if found.group(2) not in NO_EQUIVALENT:
                self.variable = (found.group(2), value)
            return
        word = rest.split()[0]
        if word.startswith("@"):
            rest = KINDS.get(word, "") + " " + rest[len(word):].lstrip(" \t")
        words = rest.split(None, 6 if user_column else 5)
        try:
            if word.startswith("@") and word not in KINDS or len(words) < (7 if user_column else 6):
                raise Bad(line)
            command = words[-1]
            if re.match(rf"{TOKEN}*\\\\%", command):
                raise Bad("it has no equivalent")
            self.entry = (cron_minutes(words[:5]), cron_command(command), words[5] if user_column else None)
            # (whether such a field is a restricted one is told in two ways)
            self.named = any("*" in words[index][1:] and words[index][0] != "*" for index in (2, 4))
        except Bad:
            self.named = True


# POSIX, by the letter.

def posix_values(text, index):
    low, high = BOUNDS[index]
    if text == "*":
        return set(range(low, high + 1))
    values = set()
    for element in text.split(","):
        assert re.fullmatch(r"[0-9]{1,2}(-[0-9]{1,2})?", element), f"the element {element}"
        ends = [int(word) for word in element.split("-")]
        assert low <= ends[0] <= ends[-1] <= (6 if index == 4 else high), f"the range {element}"
        values |= set(range(ends[0], ends[-1] + 1))
    return values


def posix_minutes(fields):
    minutes, hours, days, months, weekdays = (posix_values(text, index) for index, text in enumerate(fields))

    def is_due(day):
        dates = day.month in months and day.day in days
        if fields[2] == fields[3] == "*":
            return weekday_of(day) in weekdays
        if fields[4] == "*":
            return dates
        return dates or weekday_of(day) in weekdays

    return {60 * hour + minute for hour in hours for minute in minutes}, {day for day in DAYS if is_due(day)}


def posix_command(command):
    parts = re.sub(r"\\%", "\0", command).split("%")
    parts = [part.replace("\0", "%") for part in parts]
    return parts[0], "".join(part + "\n" for part in parts[1:])


TEST = re.compile(r"case \$\(date -d @\$\(\(0x\$\{0##\*/\?{9}\} \* 60\)\) \+%d,%w\) in (\S+)\) ;; \*\) exit 0 ;; esac; ")
tested = {}


def compare_entry(entry, variables, line):
    fields, command = line.split(" ", 5)[:5], line.split(" ", 5)[5]
    (times, days), (wanted, wanted_input), _ = entry
    here_times, here_days = posix_minutes(fields)
    text, input_here = posix_command(command)
    found = TEST.match(text)
    if found:
        patterns = found.group(1).split("|")
        tested[found.group(0)] = patterns
        here_days = {day for day in here_days if any(fnmatch.fnmatchcase(f"{day.day:02},{weekday_of(day)}", p) for p in patterns)}
        text = text[found.end():]
    assert here_times == times, "the minutes of its days"
    assert here_days == days, f"its days: {sorted(here_days ^ days)[:3]}"
    assert input_here == wanted_input, f"its standard input: {input_here!r}, not {wanted_input!r}"
    assert text.endswith(wanted), f"its command: {text!r}, not {wanted!r}"
    compare_variables(text[:len(text) - len(wanted)], variables)


compared = set()


def compare_variables(assignments, variables):
    key = (assignments, tuple(variables.items()))
    if key in compared:
        return
    compared.add(key)
    said = subprocess.run(["env", "-i", "/bin/sh", "-c", assignments + "/usr/bin/env -0; pwd"], cwd="/", capture_output=True, text=True)
    *here, directory = said.stdout.split("\0")
    here = dict(pair.split("=", 1) for pair in here)
    for name in ("PWD", "OLDPWD", "_", "SHLVL"):
        here.pop(name, None)
    assert here == variables, f"its variables: {here}, not {variables}"
    assert directory.strip() == variables.get("HOME", "/"), f"its directory: {directory}"


def run_tests(folder):
    """Runs each test as the script of a job of some days, and looks whether it comes to the command."""
    for number, (test, patterns) in enumerate(sorted(tested.items())[:12]):
        for day in random.Random(number).sample(DAYS, 6):
            minute = int(datetime.datetime(day.year, day.month, day.day, 23, 59, tzinfo=datetime.timezone.utc).timestamp()) // 60
            path = os.path.join(folder, f"a{number + 1:08x}{minute:08x}")
            with open(path, "w", encoding="ascii") as script:
                script.write(test + "echo due\n")
            said = subprocess.run(["/bin/sh", path], env={"TZ": "UTC"}, capture_output=True, text=True, check=True).stdout
            wanted = any(fnmatch.fnmatchcase(f"{day.day:02},{weekday_of(day)}", pattern) for pattern in patterns)
            assert said == ("due\n" if wanted else ""), f"{test} on {day} prints {said!r}"
            os.remove(path)


def compare_text(from_cron, text, folder, name, user=None):
    source, target = os.path.join(folder, name + ".cron"), os.path.join(folder, name + ".posix")
    with open(source, "w", encoding="latin-1", newline="") as file:
        file.write(text)
    said = subprocess.run([from_cron, source] + [user] * (user is not None), capture_output=True, encoding="latin-1")
    with open(target, "w", encoding="latin-1", newline="") as file:
        file.write(said.stdout)
    named = {int(number) for number in re.findall(r"^atcrontab: line (\d+) has no equivalent: ", said.stderr, re.M)}
    assert len(said.stderr.splitlines()) == len(named), said.stderr
    lines = iter(line for line in said.stdout.splitlines() if line.strip(" \t") and not line.lstrip(" \t").startswith("#"))
    variables, entries = {}, 0
    for number, line in enumerate(text.splitlines(), 1):
        read = CronLine(line, user is not None)
        is_named = read.named or bool(read.entry and user is not None and read.entry[2] != user)
        try:
            assert is_named == (number in named), "named" if not is_named else "not named"
            if read.variable:
                variables[read.variable[0]] = read.variable[1]
            if read.entry and not is_named:
                compare_entry(read.entry, dict(variables), next(lines))
                entries += 1
        except (AssertionError, StopIteration) as fault:
            sys.exit(f"{name}: line {number}: {line}: {fault}\n{said.stderr}")
    assert next(lines, None) is None, f"{name}: there is a line too many"
    assert said.returncode == bool(named), f"{name}: status {said.returncode}"
    return entries


EXAMPLES = r"""# use /bin/bash to run commands, instead of the default /bin/sh
SHELL=/bin/bash
# mail any output to `paul', no matter whose crontab this is
MAILTO=paul
#
# run five minutes after midnight, every day
5 0 * * *       $HOME/bin/daily.job >> $HOME/tmp/out 2>&1
# run at 2:15pm on the first of every month -- output mailed to paul
15 14 1 * *     $HOME/bin/monthly
# run at 10 pm on weekdays, annoy Joe
0 22 * * 1-5    mail -s "It's 10pm" joe%Joe,%%Where are your kids?%
23 0-23/2 * * * echo "run 23 minutes after midn, 2am, 4am ..., everyday"
5 4 * * sun     echo "run at 5 after 4 every Sunday"
0 */4 1 * mon   echo "run every 4th hour on the 1st and on every Monday"
0 0 */2 * sun   echo "run at midn on every Sunday that's an uneven date"
# Run on every second Saturday of the month
0 4 8-14 * *    test $(date +\%u) -eq 6 && echo "2nd Saturday"
@daily   a
@reboot  b
0 0 1 1 mon,tue c
*/7 1-5/2,9 * jan-mar,Dec 5-7 d\\\%e%f
"""
SYSTEM = """SHELL=/bin/sh
PATH=/usr/local/sbin:/usr/local/bin:/sbin:/bin:/usr/sbin:/usr/bin

17 *	* * *	root	cd / && run-parts --report /etc/cron.hourly
25 6	* * *	root	test -x /usr/sbin/anacron || { cd / && run-parts --report /etc/cron.daily; }
47 6	* * 7	root	test -x /usr/sbin/anacron || { cd / && run-parts --report /etc/cron.weekly; }
52 6	1 * *	root	test -x /usr/sbin/anacron || { cd / && run-parts --report /etc/cron.monthly; }
@daily	www-data	x
"""


# What Debian's cron 3.0pl1 was seen to run, and to write to its standard input.
SEEN = [
    (r"a\\b", r"a\b", ""), (r"a\\\\b", r"a\\b", ""), (r"a\\\%b", r"a\%b", ""), (r"a\\%b", "a\\", "b\n"), (r"a\b\%\\", "a\\b%\\", ""),
    (r"x%a\\b", "x", "a\\\\b\n"), (r"x%a\\\%b", "x", "a\\\\%b\n"), (r"x%a\\%b", "x", "a\\%b\n"), ("x%a\\", "x", "a\\\n"),
    ("a\\", "a\\", ""), ("x  %  b  %  ", "x  ", "  b  \n  \n"), ("x%", "x", ""), ("x%%", "x", "\n"), ("x%a%b%", "x", "a\nb\n"),
]


def random_field(choose, index):
    low, high = BOUNDS[index]
    names = {3: MONTHS, 4: WEEKDAYS}.get(index, [])

    def element():
        first = choose.randint(low, high)
        last = choose.randint(first, high)
        kind = choose.random()
        if kind < 0.15:
            return "*" + choose.choice(["", f"/{choose.randint(1, 12)}"])
        if kind < 0.3 and names:
            pair = sorted(choose.sample(range(len(names)), 2))
            word = choose.choice([names[pair[0]], names[pair[0]].title(), f"{names[pair[0]]}-{names[pair[1]]}"])
            return word
        if kind < 0.5:
            return f"{first}-{last}"
        if kind < 0.65:
            return f"{first}-{last}/{choose.randint(1, 9)}"
        return choose.choice([f"{first}", f"{first:02}"])

    if choose.random() < 0.35:
        return "*"
    text = ",".join(element() for _ in range(choose.choice([1, 1, 1, 2, 3])))
    if choose.random() < 0.03:
        text = choose.choice([f"{high + 1}", "5-1", f"{low}/2", "", "x", "1,,2", "*/0", "1-2-3", ",1"]) or "-"
    return text


def random_line(choose):
    kind = choose.random()
    if kind < 0.06:
        return choose.choice(["A=b", "A = 'it 5% '", 'PATH="/bin:/usr/bin"', "HOME=/usr", "MAILTO=x", "B=", "SHELL=/bin/sh", "C=it's"])
    command = "".join(choose.choice(["a", "b ", "\\", "\\%", "%", "'", "$x", "#", '"']) for _ in range(choose.randint(1, 8)))
    command = "x" + command
    if kind < 0.1:
        return choose.choice([*KINDS, "@reboot", "@never"]) + " " + command
    blanks = [choose.choice([" ", "\t", "  "]) for _ in BOUNDS]
    return choose.choice(["", "", " "]) + "".join(random_field(choose, i) + blanks[i] for i in range(5)) + command


def main():
    from_cron, folder = sys.argv[1:]
    me = pwd.getpwuid(os.getuid()).pw_name
    for command, text, lines in SEEN:
        assert cron_command(command) == (text, lines), f"{command} is read as {cron_command(command)}"
    counts = [compare_text(from_cron, EXAMPLES, folder, "examples")]
    for user in ("root", "www-data", "nobody"):
        counts.append(compare_text(from_cron, SYSTEM, folder, f"system_{user}", user))
    for number, path in enumerate(sorted(filter(os.path.isfile, ["/etc/crontab", *glob.glob("/etc/cron.d/*")]))):
        with open(path, encoding="latin-1") as file:
            counts.append(compare_text(from_cron, file.read(), folder, f"machine_{number}", me))
    choose = random.Random(28)
    text = "".join(random_line(choose) + "\n" for _ in range(300))
    counts.append(compare_text(from_cron, text, folder, "random"))
    assert counts[-1] > 200, f"only {counts[-1]} random lines are entries"
    run_tests(folder)
    print(f"{sum(counts)} entries, {len(tested)} tests of a day")


main()
