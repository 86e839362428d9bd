"""Makes the queues of a scenario from the attributes of real queues:

    aws sqs get-queue-attributes --queue-url URL --attribute-names All > orders.json
    tools/from-queue FILE.json .. [--depth] [--v3] [--horizon MS] [--latency MS] [--output FILE.toml]

All queues of an account and region:

    for url in $(aws sqs list-queues --query 'QueueUrls[]' --output text); do
      aws sqs get-queue-attributes --queue-url "$url" --attribute-names All > "$(basename "$url").json"
    done
    tools/from-queue *.json --output queues.toml

Each file has what that command printed for one queue, in UTF-8 or, as PowerShell writes it, in UTF-16; - is standard
input. The scenario has only the queues: you add the actors. It goes to standard output, or to FILE.toml. A setting that
the attributes do not have gets a default, marked DEFAULT in a comment. A line on standard error reports each default,
and each thing that the model does not have, unless it is the same for every queue. So it does for a value that a
scenario does not permit; then nothing is written, and the status is 2. --horizon is how long to rehearse (3600000, an
hour), and --latency how long a redrive takes (100), both in milliseconds.

With --depth the rehearsal begins with the messages that are there: producers, each marked DEPTH, send as many as
ApproximateNumberOfMessages and ApproximateNumberOfMessagesDelayed say. Each sends up to a thousand in the first second;
of more than 100,000 messages each of 100 producers sends its part, one a millisecond. Their ages are not known, so they
count as new. Messages in flight are left out. With --v3 the scenario has version 3, in which one table with
`copies` stands for producers that send as many messages; run it with --v3 too. --preview is the former name of --v3.

Examples:

    tools/from-queue orders.json failed.json --output queues.toml
    tools/from-queue orders.json --depth --horizon 86400000 > queues.toml
"""

from collections.abc import Mapping, Sequence

from .actors import add_options, check_options, tell_and_write
from .console import Fault, Parser, refuse, shown
from .queues import NAME, json_in, queue_of, read_any, with_dead_letters


def attributes_of(path: str) -> dict[str, str]:
    """The attributes in a file, as texts; numbers and truths that someone has written without quotes count as texts."""
    found = json_in(read_any(path), path)
    attributes = found.get("Attributes") if isinstance(found, dict) else None
    if not isinstance(attributes, dict):
        raise Fault(f"{path} has no Attributes as get-queue-attributes prints them")
    for key, value in attributes.items():
        if isinstance(value, (bool, int)):
            attributes[key] = str(value).lower()
        elif not isinstance(value, str):
            raise Fault(f"{path}: its attribute {shown(str(key))} is no text: {shown(str(value))}")
    if isinstance(found.get("QueueUrl"), str):
        attributes.setdefault("QueueUrl", found["QueueUrl"])
    return attributes


def name_of(path: str, attributes: Mapping[str, str]) -> str:
    if "QueueArn" in attributes:
        name = attributes["QueueArn"].rpartition(":")[2]
    elif "QueueUrl" in attributes:
        name = attributes["QueueUrl"].rstrip("/").rpartition("/")[2]
    else:
        raise Fault(f"{path} has neither QueueArn nor QueueUrl, so the queue's name is not known")
    refuse(not NAME.fullmatch(name), f"{path} has a queue name that no scenario has: {shown(name)}")
    return name


def main(words: Sequence[str]) -> int:
    parser = Parser(__doc__).take(flags=["--depth", "--v3"])
    parser.add_argument("files", nargs="+", metavar="FILE.json")
    add_options(parser)
    options = parser.parse_args(words)
    check_options(options, options.files)
    given = ((path, attributes_of(path)) for path in options.files)
    queues = [queue_of(name_of(path, attributes), attributes, options.latency, has_depth=options.depth)
              for path, attributes in given]
    return tell_and_write(with_dead_letters(queues, "file"), options, "their attributes", is_version_3=options.v3)
