"""What a campaign of pump.toml says of a run: no dose is given twice."""


def once(run):
    given = run.outs("valve")
    return "a dose is given twice" if len(given) > len(set(given)) else None
