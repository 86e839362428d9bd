"""A template of CloudFormation or SAM: its queues, and who sends to them and receives from them. from-plan imports it.
"""
from __future__ import annotations

import re
from typing import Any

from .actors import Mapping, Subscription, Wiring
from .console import Fault, library, refuse, shown
from .queues import STEPS_MOST, Found, last_name, named, number_in, table, tables, truth_in

PSEUDO = {"AWS::Partition": "aws", "AWS::Region": "region", "AWS::AccountId": "000000000000", "AWS::StackName": "stack",
          "AWS::URLSuffix": "amazonaws.com"}
# How long a number may be.
BITS_MOST = 1_000
PROPERTIES_OF_NO_QUEUE = {"QueueName", "Tags"}


class Unknown(Exception):
    """A value that the template does not give; the text says why."""


class Template:
    """A template of CloudFormation: its queues by their logical names, and its wiring.

    `parameters` are the values of parameters that are given in place of the template's defaults.
    """

    def __init__(self, found: dict[str, Any], parameters: dict[str, str]) -> None:
        for name in parameters:
            refuse(name not in table(found, "Parameters"), f"the template has no parameter {shown(name)}")
        self.found, self.parameters, self.steps = found, parameters, 0
        self.queues: dict[str, Found] = {}
        self.wiring = Wiring()
        resources = {str(name): resource for name, resource in table(found, "Resources").items()
                     if isinstance(resource, dict) and self.is_there(str(name), resource)}
        queues = {name: resource for name, resource in resources.items() if resource.get("Type") == "AWS::SQS::Queue"}
        for name, resource in queues.items():
            if not isinstance(resource.get("Properties") or {}, dict):
                raise Fault(f"{shown(name)}: its Properties are no table")
            self.queues[name] = self.queue_named(name, table(resource, "Properties"))
        for name, resource in queues.items():
            for key, value in table(resource, "Properties").items():
                self.take_property(self.queues[name], str(key), value)
            if "Condition" in resource and not self.is_known(resource["Condition"]):
                self.queues[name].notes.append(f"it is there under the condition {shown(str(resource['Condition']))}")
        for name, resource in resources.items():
            take = self.TAKES.get(str(resource.get("Type")))
            if take:
                take(self, name, table(resource, "Properties"))

    # Conditions.
    def is_known(self, condition: Any) -> bool:
        try:
            self.holds(condition)
        except Unknown:
            return False
        return True

    def is_there(self, name: str, resource: dict[str, Any]) -> bool:
        """Whether a resource is there: it is not if its condition is known not to hold."""
        if "Condition" not in resource or not self.is_known(resource["Condition"]) \
                or self.holds(resource["Condition"]):
            return True
        if resource.get("Type") == "AWS::SQS::Queue":
            self.wiring.notes.append(f"{name} is left out: its condition {shown(str(resource['Condition']))} does not "
                                     f"hold")
        return False

    def holds(self, name: Any) -> bool:
        """Whether a condition of the template holds, by its name."""
        conditions = table(self.found, "Conditions")
        if not isinstance(name, str) or name not in conditions:
            raise Unknown(f"the template has no condition {shown(str(name))}")
        return self.is_true(conditions[name])

    def is_true(self, value: Any) -> bool:
        """Whether an expression of conditions holds."""
        self.count_step()
        function, words = next(iter(value.items())) if isinstance(value, dict) and len(value) == 1 else ("", None)
        if function == "Condition":
            return self.holds(words)
        if function == "Fn::Equals" and isinstance(words, list) and len(words) == 2:
            return len({str(self.value(word)) for word in words}) == 1
        if function in ("Fn::And", "Fn::Or") and isinstance(words, list):
            return (all if function == "Fn::And" else any)(self.is_true(word) for word in words)
        if function == "Fn::Not" and isinstance(words, list) and len(words) == 1:
            return not self.is_true(words[0])
        raise Unknown("a condition is not understood")

    # Queues.
    def queue_named(self, place: str, properties: dict[str, Any]) -> Found:
        try:
            name, why = self.value(properties.get("QueueName")), "the template names none"
        except Unknown as reason:
            name, why = None, str(reason)
        queue = Found(place, named(name, place, properties.get("FifoQueue") in (True, "true")))
        if not name:
            queue.notes.append(f"DEFAULT: its name, as {why}")
        return queue

    def take_property(self, queue: Found, key: str, value: Any) -> None:
        if key in PROPERTIES_OF_NO_QUEUE:
            return
        try:
            queue.set(key, self.value(value))
        except Unknown as reason:
            queue.unknown[key] = str(reason)

    # Values.
    def count_step(self) -> None:
        self.steps += 1
        if self.steps > STEPS_MOST:
            raise Fault(f"the template has over {STEPS_MOST:,} values in its queues")

    def value(self, value: Any) -> Any:
        """A value with the functions of CloudFormation worked out."""
        self.count_step()
        if isinstance(value, list):
            return [self.value(item) for item in value]
        if not isinstance(value, dict):
            return value
        if len(value) == 1:
            function, words = next(iter(value.items()))
            if function == "Ref" or str(function).startswith("Fn::"):
                return self.called(str(function), words)
        return {key: self.value(item) for key, item in value.items()}

    def called(self, function: str, words: Any) -> Any:
        if function == "Ref":
            return self.referred(str(words))
        if function == "Fn::GetAtt":
            parts = words.split(".") if isinstance(words, str) else words
            if isinstance(parts, list) and len(parts) == 2:
                return self.attribute(*map(str, parts))
        if function == "Fn::Sub":
            text, own = words if isinstance(words, list) and len(words) == 2 else (words, {})
            own = {key: self.value(item) for key, item in table({"own": own}, "own").items()}
            return re.sub(r"\$\{([^!}][^}]*)\}", lambda match: str(self.substituted(match[1].strip(), own)), str(text))
        if function == "Fn::Join" and isinstance(words, list) and len(words) == 2 and isinstance(words[1], list):
            return str(words[0]).join(str(self.value(item)) for item in words[1])
        if function == "Fn::If" and isinstance(words, list) and len(words) == 3:
            return self.value(words[1] if self.holds(words[0]) else words[2])
        if function == "Fn::FindInMap" and isinstance(words, list) and len(words) == 3:
            return self.mapped([str(self.value(word)) for word in words])
        raise Unknown(f"it comes by {shown(function)}")

    def mapped(self, keys: list[str]) -> Any:
        """A value of the template's Mappings."""
        found = table(self.found, "Mappings", *keys[:2])
        if keys[2] not in found:
            raise Unknown(f"the template maps no {shown(' '.join(keys))}")
        return found[keys[2]]

    def substituted(self, name: str, own: dict[str, Any]) -> Any:
        if name in own:
            return own[name]
        return self.attribute(*name.split(".", 1)) if "." in name else self.referred(name)

    def referred(self, name: str) -> Any:
        """What Ref gives: of a queue its URL, of a parameter its value or default."""
        if name in self.queues:
            return f"https://queue/{self.queues[name].name}"
        if name == "AWS::NoValue":
            return None
        if name in PSEUDO:
            return PSEUDO[name]
        if name in self.parameters:
            return self.parameters[name]
        parameter = table(self.found, "Parameters", name)
        if "Default" not in parameter:
            raise Unknown(f"{shown(name)} has no default in the template")
        return parameter["Default"]

    def attribute(self, name: str, attribute: str) -> str:
        if name not in self.queues:
            raise Unknown(f"the template has no queue {shown(name)}")
        queue = self.queues[name].name
        return {"Arn": f"arn:aws:sqs:region:000000000000:{queue}", "QueueName": queue}.get(attribute, queue)

    # Who sends and receives.
    def known(self, value: Any, default: Any = None) -> Any:
        """A value, or a default if it is not known."""
        try:
            return self.value(value)
        except Unknown:
            return default

    def queue_of(self, place: str, value: Any, what: str) -> Found | None:
        """The queue that a value names by its ARN or URL; if it is none of the template, that is noted."""
        name = last_name(str(self.known(value, "")))
        found = next((queue for queue in self.queues.values() if queue.name == name), None)
        if found is None:
            self.wiring.notes.append(f"{place} is left out: the template does not tell which of its queues it {what}")
        return found

    def label_of(self, value: Any) -> str:
        """What a function or topic is called: its name, or that of its resource."""
        if isinstance(value, dict) and len(value) == 1:
            words = next(iter(value.values()))
            return str(words[0] if isinstance(words, list) and words else words).strip("${}").partition(".")[0]
        return last_name(value) if isinstance(value, str) and value else "unknown"

    def take_mapping(self, place: str, properties: dict[str, Any]) -> None:
        """Reads an AWS::Lambda::EventSourceMapping."""
        self.add_mapping(place, properties, properties.get("EventSourceArn"),
                         self.label_of(properties.get("FunctionName")))

    def add_mapping(self, place: str, properties: dict[str, Any], source: Any, function: str) -> None:
        queue = self.queue_of(place, source, "takes from")
        if queue is None:
            return
        scaling = table(properties, "ScalingConfig")
        self.wiring.mappings.append(Mapping(
            place, queue.name, function, batch=self.number_of(properties, "BatchSize") or Mapping.batch,
            window=self.number_of(properties, "MaximumBatchingWindowInSeconds") or 0,
            most=self.number_of(scaling, "MaximumConcurrency"),
            is_partial="ReportBatchItemFailures" in str(self.known(properties.get("FunctionResponseTypes"))),
            is_enabled=truth_in(self.known(properties.get("Enabled")), True),
            is_filtered=bool(properties.get("FilterCriteria")), notes=self.notes_on(properties, scaling)))

    def number_of(self, properties: dict[str, Any], key: str) -> int | None:
        return number_in(self.known(properties.get(key)))

    def notes_on(self, *properties: dict[str, Any]) -> list[str]:
        """The remarks on the properties of a mapping that the template gives, but not as a value."""
        notes = []
        for key in ("BatchSize", "MaximumBatchingWindowInSeconds", "MaximumConcurrency"):
            for found in properties:
                try:
                    self.value(found.get(key))
                except Unknown as reason:
                    notes.append(f"DEFAULT: its {key} is not known, as {reason}")
        return notes

    def take_function(self, place: str, properties: dict[str, Any]) -> None:
        """Reads the events of an AWS::Serverless::Function that come from queues, or from topics through queues."""
        for name, event in table(properties, "Events").items():
            own, label = table(event, "Properties"), f"{place}.{name}"
            kind = event.get("Type") if isinstance(event, dict) else None
            if kind == "SQS":
                self.add_mapping(label, own, own.get("Queue"), place)
            elif kind == "SNS" and isinstance(own.get("SqsSubscription"), dict):
                queue = own["SqsSubscription"].get("QueueArn")
                self.add_subscription(label, queue, own.get("Topic"), own)
                self.add_mapping(label, own["SqsSubscription"], queue, place)

    def take_subscription(self, place: str, properties: dict[str, Any]) -> None:
        """Reads an AWS::SNS::Subscription of a queue."""
        if self.known(properties.get("Protocol")) == "sqs":
            self.add_subscription(place, properties.get("Endpoint"), properties.get("TopicArn"), properties)

    def take_topic(self, place: str, properties: dict[str, Any]) -> None:
        """Reads the subscriptions that an AWS::SNS::Topic has within it."""
        for own in tables(properties, "Subscription"):
            if self.known(own.get("Protocol")) == "sqs":
                self.add_subscription(place, own.get("Endpoint"), {"Ref": place}, own)

    def add_subscription(self, place: str, endpoint: Any, topic: Any, properties: dict[str, Any]) -> None:
        queue = self.queue_of(place, endpoint, "sends to")
        if queue is not None:
            self.wiring.subscriptions.append(Subscription(
                place, queue.name, self.label_of(topic), source_of(topic), bool(properties.get("FilterPolicy"))))

    TAKES = {"AWS::Lambda::EventSourceMapping": take_mapping, "AWS::Serverless::Function": take_function,
             "AWS::SNS::Subscription": take_subscription, "AWS::SNS::Topic": take_topic}


def source_of(topic: Any) -> str:
    """What a template says of a topic, which is nothing if it is nested too deep."""
    try:
        return repr(topic) if topic else ""
    except RecursionError:
        return ""


def yaml_in(text: str, path: str) -> Any:
    """The contents of a text in YAML, with CloudFormation's short forms, such as !Ref, written out."""
    yaml = library("yaml", "python3-yaml")

    loader_type: Any = type("Loader", (yaml.SafeLoader,), {})

    def written_out(loader: Any, name: str, node: Any) -> dict[str, Any]:
        kinds = {yaml.ScalarNode: loader.construct_scalar, yaml.SequenceNode: loader.construct_sequence}
        construct = kinds.get(type(node), loader.construct_mapping)
        words = construct(node) if construct == loader.construct_scalar else construct(node, deep=True)
        return {name if name in ("Ref", "Condition") else f"Fn::{name}": words}

    def whole_number(loader: Any, node: Any) -> int:
        number: int = loader.construct_yaml_int(node)
        if number.bit_length() > BITS_MOST:
            raise ValueError("a number has too many digits")
        return number

    loader_type.add_multi_constructor("!", written_out)
    loader_type.add_constructor("tag:yaml.org,2002:int", whole_number)
    try:
        return yaml.load(text, loader_type)
    except RecursionError:
        raise Fault(f"{path} is nested too deep") from None
    except (yaml.YAMLError, ValueError, IndexError, TypeError) as error:
        raise Fault(f"{path} is neither JSON nor YAML: {' '.join(str(error).split())}") from None
