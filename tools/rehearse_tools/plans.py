"""A plan or state of Terraform: its queues, and who sends to them and receives from them. from-plan imports it.

Some values are not known before a plan is applied, such as the ARN of a new queue. They are found by the configuration:
which resource an argument refers to, through variables and outputs of modules.
"""
from __future__ import annotations

import dataclasses
import functools
import json
import re
from collections.abc import Iterator, Sequence
from typing import Any

from .actors import Mapping, Subscription, Wiring
from .console import Fault
from .queues import (NUMBERS, STEPS_MOST, Found, last_name, named, number_in, table, tables,
                     truth_in)

# The arguments of aws_sqs_queue, by SQS's names of the attributes.
ARGUMENTS = {
    "VisibilityTimeout": "visibility_timeout_seconds", "DelaySeconds": "delay_seconds",
    "MessageRetentionPeriod": "message_retention_seconds", "ReceiveMessageWaitTimeSeconds": "receive_wait_time_seconds",
    "FifoQueue": "fifo_queue", "ContentBasedDeduplication": "content_based_deduplication",
    "DeduplicationScope": "deduplication_scope", "FifoThroughputLimit": "fifo_throughput_limit",
    "RedrivePolicy": "redrive_policy", "RedriveAllowPolicy": "redrive_allow_policy", "Policy": "policy",
    "KmsMasterKeyId": "kms_master_key_id",
}
RECEIVES, RECEIVES_MOST, DEPTH_MOST, REFERENCES_MOST = 10, 1_000, 20, 1_000
INDEX = r'\[(?:"(?:[^"\\]|\\.)*"|[0-9]+)\]'
# The references by which an expression takes the instance of its own key or number.
INSTANCE = {"each.key", "count.index"}
DEAD_LETTER = re.compile(r'"deadLetterTargetArn"\s*:\s*"([^"]*)"')
STEP = re.compile(rf"module\.([^.\[]+)({INDEX})?\.")
PART = re.compile(rf"\.?([^.\[]+)({INDEX})?")

# The modules from the root on, each with its name and its index, as a text like ["a"] or [0]; the index may be empty.
Path = tuple[tuple[str, str], ...]


@dataclasses.dataclass(frozen=True)
class Address:
    """The place of a resource: its module, its type and name such as aws_sqs_queue.orders, and its index."""

    path: Path
    resource: str
    index: str


@dataclasses.dataclass(frozen=True)
class Scope:
    """The context of an expression: its module, and what repeats it, of which `index` is the instance.

    `owner` is the configuration of the resource or the call of a module that the expression belongs to.
    """

    path: Path
    index: str
    owner: dict[str, Any] = dataclasses.field(hash=False, compare=False)


def address_of(text: str) -> Address:
    """The parts of an address such as module.q["a"].aws_sqs_queue.this[0]."""
    path, place = [], 0
    while step := STEP.match(text, place):
        path.append((step[1], step[2] or ""))
        place = step.end()
    parts = parts_of(text[place:])
    return Address(tuple(path), ".".join(name for name, _ in parts), parts[-1][1] if parts else "")


@functools.lru_cache(10_000)
def parts_of(text: str) -> tuple[tuple[str, str], ...]:
    """The words of a reference, each with the index that follows it."""
    return tuple((match[1], match[2] or "") for match in PART.finditer(text))


def specific(references: Any) -> list[str]:
    """The references that `specific_of` leaves of a list; none if it is no list."""
    return specific_of(tuple(text for text in references[:REFERENCES_MOST] if isinstance(text, str))) \
        if isinstance(references, list) else []


@functools.lru_cache(10_000)
def specific_of(references: tuple[str, ...]) -> list[str]:
    """References without those that only begin another one: Terraform gives a.b[0].arn, a.b[0] and a.b together."""
    texts = [text for text in references if parts_of(text)]
    return [text for text in texts
            if not any(other != text and other.startswith((f"{text}.", f"{text}[")) for other in texts)]


def key_of(index: str) -> Any:
    """The key of an index, a text or a number."""
    try:
        return json.loads(index[1:-1]) if index else None
    except ValueError:
        return None


def receives_in(value: Any) -> int | None:
    """The maxReceiveCount of a policy, or of what goes into one, as a table or as a text in JSON."""
    if isinstance(value, str) and value.startswith("{"):
        try:
            value = json.loads(value)
        except (ValueError, RecursionError):
            return None
    return number_in(value.get("maxReceiveCount")) if isinstance(value, dict) else None


class Plan:
    """The queues of a plan by address, and its wiring."""

    def __init__(self, found: dict[str, Any]) -> None:
        self.configuration = table(found, "configuration", "root_module")
        self.variables = table(found, "variables")
        self.queues: dict[str, Found] = {}
        self.addresses: dict[str, Address] = {}
        self.paths: set[Path] = set()
        self.others: list[tuple[str, str, dict[str, Any]]] = []
        self.wiring, self.steps = Wiring(), 0
        values = table(found, "planned_values") or table(found, "values")
        self.take_module(table(values, "root_module"))
        for place, queue in self.queues.items():
            self.complete(queue, place)
        for kind, place, values in self.others:
            self.TAKES[kind](self, place, values)

    def take_module(self, module: dict[str, Any]) -> None:
        for resource in tables(module, "resources"):
            address, values = str(resource.get("address", "")), table(resource, "values")
            kind = resource.get("type")
            if resource.get("mode", "managed") != "managed":
                continue
            if kind == "aws_sqs_queue":
                self.take_queue(address, values)
            elif isinstance(kind, str) and kind in self.TAKES:
                self.others.append((kind, address, values))
        for child in tables(module, "child_modules"):
            self.take_module(child)

    def take_queue(self, place: str, values: dict[str, Any]) -> None:
        short = place.replace("aws_sqs_queue.", "").replace("module.", "")
        name = named(values.get("name"), short, values.get("fifo_queue") is True)
        queue = self.queues[place] = Found(place, name)
        address = self.addresses[place] = address_of(place)
        self.paths.update(address.path[:length] for length in range(len(address.path) + 1))
        if not values.get("name"):
            queue.notes.append(f"DEFAULT: its name, as the plan does not tell it of {place}")
        given = table(self.scope_of(place).owner, "expressions")
        for attribute, argument in ARGUMENTS.items():
            queue.set(attribute, values.get(argument))
            if attribute in NUMBERS and argument in given and argument not in values:
                queue.unknown[attribute] = "the plan does not tell it before it is applied"

    # The configuration.
    def module_at(self, path: Path) -> dict[str, Any]:
        """The configuration of a module."""
        module = self.configuration
        for name, _ in path:
            module = table(module, "module_calls", name, "module")
        return module

    def scope_of(self, place: str) -> Scope:
        """The scope of the arguments of a resource."""
        address = address_of(place)
        owners = (found for found in tables(self.module_at(address.path), "resources")
                  if found.get("address") == address.resource)
        return Scope(address.path, address.index, next(owners, {}))

    def scope_of_call(self, path: Path) -> Scope:
        """The scope of the arguments that a module is called with."""
        call = table(self.module_at(path[:-1]), "module_calls", path[-1][0])
        return Scope(path[:-1], path[-1][1], call)

    def count_step(self) -> None:
        self.steps += 1
        if self.steps > STEPS_MOST:
            raise Fault(f"the plan has over {STEPS_MOST:,} references")

    # The queues that something refers to.
    def referred(self, scope: Scope, expression: dict[str, Any], depth: int = 0) -> set[str]:
        """The addresses of the queues that an expression leads to, through variables and outputs too."""
        found: set[str] = set()
        constant = expression.get("constant_value")
        if isinstance(constant, str):
            found |= self.of_name(last_name(constant))
        references = specific(expression.get("references")) if depth < DEPTH_MOST else []
        is_repeated = not INSTANCE.isdisjoint(references)
        for reference in references:
            self.count_step()
            parts = parts_of(reference)
            if is_repeated and len(parts) == 2 and parts[0][0] == "module":
                found |= self.of_instance((*scope.path, (parts[1][0], scope.index)))
            else:
                found |= self.referred_once(scope, parts, depth + 1)
        return found

    def of_instance(self, path: Path) -> set[str]:
        """The queue of module.NAME[each.key], of which a plan has no more than module.NAME and each.key: all queues of
        that instance, but for those that are dead-letter queues of others there."""
        found = {place for place, address in self.addresses.items() if address.path[:len(path)] == path}
        policies = [self.queues[place].attributes.get("RedrivePolicy", "") for place in found]
        behind = {name for policy in policies for name in DEAD_LETTER.findall(policy)}
        return {place for place in found if self.queues[place].name not in map(last_name, behind)}

    def referred_once(self, scope: Scope, parts: Sequence[tuple[str, str]], depth: int) -> set[str]:
        kind, names = parts[0][0], [name for name, _ in parts]
        if kind == "aws_sqs_queue" and len(parts) > 1:
            return self.instances(scope, ".".join(names[:2]), parts[1][1])
        if kind == "var" and scope.path and len(parts) > 1:
            outer = self.scope_of_call(scope.path)
            return self.referred(outer, table(outer.owner, "expressions", names[1]), depth)
        if kind == "each":
            found = self.referred(scope, table(scope.owner, "for_each_expression"), depth)
            return self.of_key(found, key_of(scope.index))
        found = set()
        if kind == "module" and len(parts) > 2:
            for path in self.modules(scope, *parts[1]):
                output = table(self.module_at(path), "outputs", names[2], "expression")
                found |= self.referred(Scope(path, "", {}), output, depth)
        return found

    def instances(self, scope: Scope, resource: str, index: str) -> set[str]:
        """The addresses that a resource of a module has: that of an index, or with the same index, else all."""
        found = {place: address for place, address in self.addresses.items()
                 if address.path == scope.path and address.resource == resource}
        same = {place for place, address in found.items() if address.index == (index or scope.index)}
        return same if same or index else set(found)

    def modules(self, scope: Scope, name: str, index: str) -> list[Path]:
        """The instances of a module that is called in a module: that of an index, or with the same, else all."""
        found = [path for path in self.paths if path[:-1] == scope.path and path and path[-1][0] == name]
        same = [path for path in found if path[-1][1] == (index or scope.index)]
        return same if same or index else found

    def of_name(self, name: str) -> set[str]:
        return {place for place, queue in self.queues.items() if name and queue.name == name}

    def of_key(self, found: set[str], key: Any) -> set[str]:
        """Of several queues that a loop makes, that whose name or address has the key of the instance."""
        same = {place for place in found if key is not None and key in (
            self.queues[place].name, self.addresses[place].resource.partition(".")[2],
            key_of(self.addresses[place].index))}
        return same or found

    # The numbers that something refers to.
    def constants(self, scope: Scope, expression: dict[str, Any], depth: int = 0) -> Iterator[tuple[str, Any]]:
        """The values that an expression comes from, as far as they are known, each with what it is called."""
        if "constant_value" in expression:
            yield "", expression["constant_value"]
        for reference in specific(expression.get("references")) if depth < DEPTH_MOST else ():
            self.count_step()
            parts = parts_of(reference)
            for name, value in self.constants_once(scope, [part for part, _ in parts], depth + 1):
                for key in (part for part, _ in parts[2:]):
                    value = value.get(key) if isinstance(value, dict) else value
                yield name or reference, value

    def constants_once(self, scope: Scope, names: list[str], depth: int) -> Iterator[tuple[str, Any]]:
        if names[0] == "var" and len(names) > 1:
            outer = self.scope_of_call(scope.path) if scope.path else None
            given = table(outer.owner, "expressions", names[1]) if outer else {}
            known = table(self.variables, names[1])
            if outer and given:
                yield from self.constants(outer, given, depth)
            elif not scope.path and "value" in known:
                yield "", known["value"]
            else:
                yield "", table(self.module_at(scope.path), "variables", names[1]).get("default")
        elif names[:2] == ["each", "value"]:
            for name, value in self.constants(scope, table(scope.owner, "for_each_expression"), depth):
                yield name and "each.value", value.get(key_of(scope.index)) if isinstance(value, dict) else None

    def receives_of(self, scope: Scope, expression: dict[str, Any]) -> tuple[str, int] | None:
        """The maxReceiveCount in a policy's expression, and how it was found; None if it is not one number."""
        found = list(self.constants(scope, expression))
        policies = {(name, number) for name, value in found if (number := receives_in(value)) is not None}
        numbers = {(name, number) for name, value in found if (number := number_in(value)) is not None}
        for candidates in (policies, numbers):
            candidates = {(name, number) for name, number in candidates if 1 <= number <= RECEIVES_MOST}
            if len({number for _, number in candidates}) == 1:
                return min(candidates)
        return None

    # Resources.
    def complete(self, queue: Found, place: str) -> None:
        """Finds the dead-letter queue of a queue whose policy is known only once the plan is applied."""
        scope = self.scope_of(place)
        expression = table(scope.owner, "expressions", "redrive_policy")
        if "RedrivePolicy" in queue.attributes or not expression.get("references"):
            return
        targets = self.referred(scope, expression) - {queue.place}
        if len(targets) != 1:
            queue.notes.append("DEFAULT: no dead-letter queue, as the plan does not tell which one its policy names")
            return
        receives = self.receives_of(scope, expression)
        queue.set_redrive(self.queues[targets.pop()], receives[1] if receives else RECEIVES)
        queue.notes.append(f"DEFAULT: max_receives of {receives[1]}, the number of {receives[0]}, to which its policy "
                           f"refers" if receives else
                           f"DEFAULT: max_receives of {RECEIVES}, as the plan does not tell it before it is applied")

    def queue_of(self, place: str, argument: str, values: dict[str, Any], note: str) -> Found | None:
        """The one queue that an argument of a resource names, by its value if that is known; if the plan does not tell
        it, that is noted."""
        value = values.get(argument)
        if isinstance(value, str) and value:
            found = self.of_name(last_name(value))
        else:
            scope = self.scope_of(place)
            found = self.referred(scope, table(scope.owner, "expressions", argument))
        if len(found) != 1:
            self.wiring.notes.append(note)
        return self.queues[found.pop()] if len(found) == 1 else None

    def take_policy(self, place: str, values: dict[str, Any]) -> None:
        """Reads an aws_sqs_queue_redrive_policy."""
        queue = self.queue_of(place, "queue_url", values,
                              f"DEFAULT: no dead-letter queue by {place}, as the plan does not tell whose it is")
        if queue:
            queue.set("RedrivePolicy", values.get("redrive_policy"))
            self.complete(queue, place)

    def label_of(self, place: str, argument: str, value: Any) -> str:
        """What a function or topic is called: its name if that is known, else that of its resource."""
        if isinstance(value, str) and value:
            return last_name(value)
        expression = table(self.scope_of(place).owner, "expressions", argument)
        parts = [parts_of(text) for text in specific(expression.get("references"))]
        return next((words[1][0] for words in parts if len(words) > 1), "unknown")

    def source_of(self, place: str, argument: str, value: Any) -> str:
        """What an argument is, if the plan tells it, else what it refers to: in a loop that is of the instance."""
        if isinstance(value, str) and value:
            return value
        scope = self.scope_of(place)
        references = specific(table(scope.owner, "expressions", argument).get("references"))
        is_repeated = any(parts_of(text)[0][0] in ("each", "count") for text in references)
        return repr((scope.path, sorted(references), scope.index if is_repeated else "")) if references else ""

    def take_mapping(self, place: str, values: dict[str, Any]) -> None:
        """Reads an aws_lambda_event_source_mapping; those of streams and of other queues are left out."""
        queue = self.queue_of(place, "event_source_arn", values,
                              f"{place} is left out: the plan does not tell which of its queues it takes from")
        if queue is None:
            return
        scaling = tables(values, "scaling_config")
        self.wiring.mappings.append(Mapping(
            place, queue.name, self.label_of(place, "function_name", values.get("function_name")),
            batch=number_in(values.get("batch_size")) or Mapping.batch,
            window=number_in(values.get("maximum_batching_window_in_seconds")) or 0,
            most=number_in(scaling[0].get("maximum_concurrency")) if scaling else None,
            is_partial="ReportBatchItemFailures" in str(values.get("function_response_types")),
            is_enabled=truth_in(values.get("enabled"), True), is_filtered=bool(values.get("filter_criteria"))))

    def take_subscription(self, place: str, values: dict[str, Any]) -> None:
        """Reads an aws_sns_topic_subscription of a queue."""
        if values.get("protocol") != "sqs":
            return
        queue = self.queue_of(place, "endpoint", values,
                              f"{place} is left out: the plan does not tell which of its queues it sends to")
        if queue is None:
            return
        topic = values.get("topic_arn")
        self.wiring.subscriptions.append(Subscription(
            place, queue.name, self.label_of(place, "topic_arn", topic), self.source_of(place, "topic_arn", topic),
            bool(values.get("filter_policy"))))

    TAKES = {"aws_sqs_queue_redrive_policy": take_policy, "aws_lambda_event_source_mapping": take_mapping,
             "aws_sns_topic_subscription": take_subscription}
