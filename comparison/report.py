# SPDX-License-Identifier: MIT
"""Compares scripts, and prints the results."""

import concurrent.futures

import programs

DIFFERENCES = programs.HERE / "differences"
# How many scripts are compared at once.
AT_A_TIME = 2


def not_expressible(file):
    """Returns why Ada can't express the script, or None if it can."""
    words = file.with_suffix(".words")
    if words.exists() and words.read_bytes().split() != [b"run"]:
        return "no script: it is about the command line"
    text = programs.text_of(file)
    if programs.of_pobj(text) is None:
        return "a fault of the script itself"
    for command in programs.commands(text)[:1]:
        unit = command.split()
        if "max" in unit:
            return "max: the bound of a queue is static in Ada (D.4, D.7)"
        if "oldest" in unit or "rotating" in unit:
            return "another service order than GNAT's"
    return None


def stated(name):
    """Returns what GNAT writes on the script of that name according to its page. Returns None if there is no page, or if pobj
    carries out GNAT's objects: then nothing may differ."""
    file = DIFFERENCES / f"{name}.gnat"
    return programs.comparable(file.read_text()) if programs.runtime is None and file.exists() else None


def compared(file):
    """Compares a script of examples/ or cases/. Returns the result in words, and whether it is good."""
    why = not_expressible(file)
    if why is not None:
        return f"not expressible: {why}", True
    text = programs.text_of(file)
    ours, theirs = programs.answers(programs.shown(text))
    if ours == theirs:
        return "same", True
    page = stated(file.stem)
    if page is not None and programs.answers(text, page)[1] == page:
        return f"differs, explained in comparison/differences/{file.stem}.why", True
    return "DIFFERS, and nothing explains it", False


def difference(file):
    """Compares a script that shows a difference. Returns the result in words, and whether it is good."""
    text = programs.text_of(file)
    page = stated(file.stem)
    ours, theirs = programs.answers(text, page)
    if ours != programs.comparable(file.with_suffix(".out").read_text()):
        return "pobj DOESN'T WRITE what the page says", False
    if theirs == page:
        return f"differs, explained in {file.with_suffix('.why').name}", True
    if theirs == ours and programs.runtime is not None:
        return "same", True
    if theirs == ours:
        return "same: this isn't the GNAT that the page is about", True
    return "DIFFERS, but not as the page says", False


def two_functions(_):
    """Calls two functions of one object at the same time. Returns the result in words, and that it is good, as both results
    are allowed."""
    name = "functions_exclude_each_other"
    ended = programs.run([str(programs.OUT / "two_functions")], "")
    if ended.stdout.splitlines() == stated(name):
        return f"differs, explained in {name}.why", True
    return f"this GNAT says: {ended.stdout.strip()}", True


def scripts_in(folder):
    """Returns the scripts of the folder by name."""
    return sorted(folder.glob("*.pobj"))


def try_files(files):
    """Has pobj's sources tried on all these scripts at once, if pobj isn't built."""
    texts = [programs.text_of(file) for file in files]
    programs.try_scripts(list(dict.fromkeys(texts + [programs.shown(text) for text in texts])))


def scripts():
    """Prints the table of all scripts, and returns the status."""
    good = True
    rows = [(file, compared) for folder in ("examples", "cases") for file in scripts_in(programs.TOP / folder)]
    rows += [(file, difference) for file in scripts_in(DIFFERENCES)]
    try_files([file for file, _ in rows])
    if programs.runtime is None:
        rows.append((programs.HERE / "ada" / "two_functions.adb", two_functions))
    names = [str(file.relative_to(programs.TOP)) for file, _ in rows]
    width = max(len(name) for name in names)
    print(f"{'script':<{width}} result")
    for name, (file, judge) in zip(names, rows):
        result, is_good = judge(file)
        good = good and is_good
        print(f"{name:<{width}} {result}", flush=True)
    well = "each difference is explained" if programs.runtime is None else "none differs"
    print(well if good else "a difference isn't explained: ./compare script FILE shows it")
    return 0 if good else 1


def by_command(text, lines):
    """Yields the commands of a script with the lines written at each, including those of the `show` after it."""
    rest = iter(lines)
    for command in programs.commands(text):
        ends, written = (2 if command.split(" ")[0] == "show" else 1), []
        while ends > 0 and (line := next(rest, None)) is not None:
            written.append(line)
            ends -= line.startswith("next ")
        yield command, written


def print_first_difference(text, ours, theirs):
    """Prints the script up to the first command at which the answers differ, and what each wrote at it and at the `show` after
    it."""
    for (command, one), (_, other) in zip(by_command(text, ours), by_command(text, theirs)):
        print(f"  {command}")
        if one != other:
            print("pobj, with the queues after it:", *one, sep="\n  ")
            print("GNAT, with the queues after it:", *other, sep="\n  ")
            return


def one_script(file):
    """Compares one script, and returns the status."""
    try_files([file])
    why = not_expressible(file)
    if why is not None:
        print(f"not expressible: {why}")
        return 0
    text = programs.text_of(file)
    ours, theirs = programs.answers(programs.shown(text))
    if ours == theirs:
        print("same")
        return 0
    print_first_difference(text, ours, theirs)
    return 1


def random_ones(seed, count, script):
    """Compares random scripts, and returns the status. The first one that differs is kept as a file."""
    texts = [script(seed, place) for place in range(count)]
    programs.try_scripts([programs.shown(text) for text in texts])

    def judge(place):
        ours, theirs = programs.answers(programs.shown(texts[place]))
        return place, texts[place], ours, theirs

    agree, first = 0, None
    with concurrent.futures.ThreadPoolExecutor(AT_A_TIME) as pool:
        for place, text, ours, theirs in pool.map(judge, range(count)):
            if ours == theirs:
                agree += 1
            elif first is None:
                first = place, text, ours, theirs
    print(f"{agree} of {count} random scripts agree (seed {seed})")
    if first is None:
        return 0
    place, text, ours, theirs = first
    kept = programs.OUT / f"random_{seed}_{place}.pobj"
    kept.write_text(text)
    print(f"the first that doesn't: ./compare script {kept.relative_to(programs.TOP)}")
    print_first_difference(text, ours, theirs)
    return 1
