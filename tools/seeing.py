"""What an edit had seen, in as few names as say it all."""
from stored import SITES


def joined(vectors):
    """The counts of all that was seen by any."""
    return tuple(max(counts) for counts in zip((0,) * SITES, *vectors))


def needed(vectors, e, known):
    """The names of the edits that e had seen past these counts: of the names in this table of vectors the latest of
    each other site, but for those that another of them had seen."""
    latest = {}
    for site, seq in vectors:
        if site != e.site and site < SITES and known[site] < seq <= e.vector[site]:
            latest[site] = max(seq, latest.get(site, 0))
    names = sorted(latest.items())
    return [one for one in names if not any(vectors[other][one[0]] >= one[1] for other in names if other != one)]
