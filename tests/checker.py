"""What `check` writes of a bank: apart from the program, for what cases want."""

from __future__ import annotations

import foreseer
import jobber
import judge
import maker
import restorer
from judge import Refused


def judgement(good, bad, judged, *given):
    """How a line ends that tells a judgement, and the manifest where all is well."""
    try:
        manifest = judged(*given)
    except Refused as refused:
        return f"{bad} {refused}", None
    return f"{good} svn {manifest[4]}", manifest


def verdict(name, image, store, rows):
    """The lines of a bank, without its name."""
    cause = judge.provision_cause(store)
    if cause:
        return [cause]
    layout = restorer.layout_of(store, name)
    cause = judge.layout_cause(layout, len(image))
    if cause:
        return [f"layout {cause}"]
    active, running = judgement("trusted", "untrusted", judge.judge_image, image, name, store, rows)
    recovery, _ = judgement("good", "bad", judge.judge_capsule, image, layout.recovery_at, name, store, rows)
    staging, staged = judgement("good", "bad", judge.judge_capsule, image, layout.staging_at, name, store, rows)
    job = jobber.name_of(jobber.job_of(store, name))
    same = "yes" if running and running == staged else "no"
    lines = [f"floor {judge.floor_of(store, name)}", f"job {job}", f"active {active}", f"recovery {recovery}"]
    return lines + [f"staging {staging}", f"same-manifest {same}"]


def verdicts(bmc, pch, nv, engine):
    """What `check` writes of a platform."""
    rows = foreseer.rows_of(engine)
    return "".join(f"{name} {line}\n" for name, image in zip(maker.BANKS, (bmc, pch)) for line in verdict(name, image, nv, rows))
