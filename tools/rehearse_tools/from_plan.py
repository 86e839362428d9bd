"""Makes a scenario from a plan of Terraform, or from a template of CloudFormation:

    terraform plan -out plan && terraform show -json plan > plan.json
    tools/from-plan plan.json [--v3] [--horizon MS] [--latency MS] [--output FILE.toml]
    tools/from-plan template.yaml [--parameter KEY=VALUE ..] [--v3] [--horizon MS] [--latency MS]
        [--output FILE.toml]

A plan, or a state that `terraform show -json` prints, has its queues as aws_sqs_queue, also in child modules. Their
dead-letter queues are in redrive_policy or in aws_sqs_queue_redrive_policy. A template, in JSON or YAML, has its queues
as AWS::SQS::Queue; Ref, GetAtt, Sub, Join, FindInMap and If are followed within the file. Parameters have the value of
--parameter, for example --parameter Stage=prod, else their default. - is standard input.

If a function takes messages from a queue, by an event source mapping or an event of SAM, the queue gets a consumer for
each call that may run at once. A queue that is subscribed to a topic of SNS gets a producer for it. Each other queue
that takes no dead letters gets a producer and a consumer, so that the scenario can be run. All are marked SKELETON in a
comment, because no plan says how many messages come and how long their service takes. Consumers poll for 20 s if the
file does not say. With --v3 the scenario has version 3, in which a function that does not report batch item failures
fails its whole batch; run it with --v3 too. Then also a topic of which two to ten queues of one kind get all messages
is a queue of its own, with a consumer that forwards each message to all of them. --preview is the former name of --v3.

A setting that the file does not have gets a default, marked DEFAULT. Each default, and each thing that the model does
not have, is also a line on standard error. So is a value that a scenario does not permit; then nothing is written, and
the status is 2. --horizon is how long to rehearse (3600000, an hour), and --latency how long a redrive takes (100), and
the way from a topic to a queue, both in milliseconds.

Examples:

    tools/from-plan examples/template.yaml --output scenario.toml
    tools/from-plan plan.json --horizon 86400000 --latency 50 > scenario.toml
"""
from collections.abc import Sequence

from .actors import Wiring, add_options, check_options, tell_and_write
from .console import Fault, Parser, refuse, shown
from .plans import ARGUMENTS, Plan
from .queues import NAME, Found, Queue, json_in, queue_of, read_any, table, with_dead_letters
from .templates import Template, yaml_in


def parameters_of(texts: list[str]) -> dict[str, str]:
    """The parameters that are given as KEY=VALUE."""
    for text in texts:
        refuse(not text.partition("=")[0] or "=" not in text, f"{shown(text)} is no parameter, as Stage=prod")
    return {key: value for key, _, value in (text.partition("=") for text in texts)}


def found_in(path: str, parameters: dict[str, str]) -> tuple[dict[str, Found], Wiring, str, dict[str, str]]:
    """The queues of a file and its wiring, what it is, and what it calls attributes."""
    text = read_any(path)
    found = json_in(text, path) if text.lstrip()[:1] in ("{", "[") else yaml_in(text, path)
    if table(found, "planned_values") or table(found, "values"):
        refuse(parameters, "--parameter goes with a template; a plan has the values of its variables")
        plan = Plan(found)
        return plan.queues, plan.wiring, "a plan of Terraform", ARGUMENTS
    if table(found, "Resources"):
        template = Template(found, parameters)
        return template.queues, template.wiring, "a template of CloudFormation", {}
    raise Fault(f"{path} is neither what `terraform show -json` prints nor a template of CloudFormation")


def queue_from(found: Found, latency: int, called: dict[str, str]) -> Queue:
    refuse(not NAME.fullmatch(found.name), f"{found.place} has a name that no scenario has: {shown(found.name)}")
    queue = queue_of(found.name, found.attributes, latency, called, found.unknown)
    for note in found.notes:
        queue.note(note)
    return queue


def main(words: Sequence[str]) -> int:
    parser = Parser(__doc__).take(flags=["--v3"], lists=["--parameter"])
    parser.add_argument("file", metavar="FILE")
    add_options(parser)
    options = parser.parse_args(words)
    check_options(options, [options.file])
    found, wiring, source, called = found_in(options.file, parameters_of(options.parameter))
    refuse(not found, f"{options.file} has no queues")
    queues = [queue_from(queue, options.latency, called) for queue in found.values()]
    return tell_and_write(with_dead_letters(queues, "resource"), options, source, wiring, options.v3)
