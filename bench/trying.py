"""What is expected of a program, and what was seen, a line for each."""

wrong = []


def expect(what, seen, wanted):
    """Says what was seen; a function as `wanted` is a test."""
    is_right = wanted(seen) if callable(wanted) else seen == wanted
    print(f"{'' if is_right else 'WRONG '}{what}: {seen}" + ("" if is_right or callable(wanted) else f"; wanted: {wanted}"), flush=True)
    if not is_right:
        wrong.append(what)


def try_all(trials):
    """Does each trial, and ends with status 1 where something else was seen than what is wanted."""
    for trial in trials:
        print(f"-- {trial.__name__.replace('_', ' ')}", flush=True)
        try:
            trial()
        except (OSError, SystemExit, AttributeError, IndexError) as fault:
            expect(trial.__name__, repr(fault), "no fault")
    if wrong:
        raise SystemExit(f"{len(wrong)} wrong: {', '.join(wrong)}")
