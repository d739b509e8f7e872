"""Traces: .ci/rows/traces."""

from tables.cases import call, case, plain, sections


def cases():
    for (text, schedule, begin, most), trace in sections("traces"):
        words = ["goi", "replay", "p", "s", "--trace", "--from", begin, "--most", most]

        def behind_report(words=words, files={"p": plain(text), "s": plain(schedule)}):
            status, out, err = call(words, files)
            return status in (0, 5), out.split(b"\n", 2)[-1].decode(), err

        case(f"the trace of {schedule} of {text} from {begin}", behind_report, (True, trace, b""))
