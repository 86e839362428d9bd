"""Tests tools/from-plan on plans of Terraform and templates of CloudFormation written by hand."""
import contextlib
import copy
import io
import json
import os
import random
import sys

from tool import PROGRAM, TOOLS, ToolCase, module_of, needs_program, printed, ran, text_at
from rehearse_tools.console import Fault, toml_of

ARN = "arn:aws:sqs:eu-central-1:123456789012:"


def resource(address, of="aws_sqs_queue", mode="managed", **values):
    return {"address": address, "mode": mode, "type": of, "values": values}


def configured(address, **references):
    return {"address": address, "expressions": {key: {"references": found} for key, found in references.items()}}


def plan_of(resources=(), configurations=(), modules=(), **calls):
    """A plan with these resources and modules, and the configurations of resources and calls of modules."""
    return {"planned_values": {"root_module": {"resources": [*resources], "child_modules": [*modules]}},
            "configuration": {"root_module": {"resources": [*configurations], "module_calls": calls}}}


PLANS = os.path.join(os.path.dirname(os.path.abspath(__file__)), "plans")
# A plan and a template, and what is made of them as far as their queues; sam.yaml has events and conditions.
PLAN, TABLES, TEMPLATE, TEMPLATE_TABLES, SAM = (text_at(PLANS, name) for name in (
    "plan.json", "plan.toml", "template.yaml", "template.toml", "sam.yaml"))
STORED = ("modules/plan.json", "nested/plan.json", "wiring/plan.json", "wiring/state.json", "template.json")
OTHERS = (None, 0, -1, 1.5, "", [], {}, True, "x", ["a"], {"a": 1}, "module.a", "each.value", "[[", "a" * 2_000,
          {"Ref": "Q"}, {"Fn::If": ["C", 1, 2]}, {"Condition": "C"})
from_plan = module_of("from-plan")


def change(found, chance):
    """Puts another value in the place of one of a document, wherever chance leads."""
    while found:
        key = chance.choice(list(found) if isinstance(found, dict) else range(len(found)))
        if not isinstance(found[key], (dict, list)) or not found[key] or chance.random() < 0.1:
            found[key] = copy.deepcopy(chance.choice(OTHERS))
            return
        found = found[key]


class FromPlan(ToolCase):
    def made(self, text, *words):
        """What is made of a text, without its head and its skeletons."""
        out, err = self.ends(0, self.run_tool("from-plan", self.write("given", text), *words))
        comments = [line for line in out[out.index("[[queue]]"):].splitlines()
                    if line.startswith("# ") and "SKELETON" not in line]
        self.assertEqual(len(err.splitlines()), len(comments))
        return out[out.index("horizon"):].partition("\n")[2]

    def test_plan(self):
        self.assertTrue(self.made(PLAN).startswith(f"\n{TABLES}"))

    def stored(self, name):
        """The scenario that is made of a stored plan, and what standard error reports."""
        out, err = self.ends(0, self.run_tool("from-plan", os.path.join(PLANS, name)))
        return toml_of(out), err

    def dead_letters(self, scenario):
        """For each queue with a dead-letter queue its name and after how many receives."""
        return {queue["name"]: (queue["dead_letter"], queue["max_receives"]) for queue in scenario["queue"]
                if "dead_letter" in queue}

    def test_the_instance_of_a_key_or_a_number(self):
        """module.sqs[each.key].queue_arn is of the instance that has the key of the resource, and of its queue, not of
        its dead-letter queue; module.sqs[count.index] is that of the number. Without that instance nothing is taken."""
        for keys, by in (('"orders"', '"mail"'), "each.key"), (("0", "1"), "count.index"):
            names = [f"q{number}" for number in range(2)]
            modules = [{"address": f"module.sqs[{key}]", "resources": [
                resource(f"module.sqs[{key}].aws_sqs_queue.this", name=name, redrive_policy=json.dumps(
                    {"deadLetterTargetArn": f"arn:aws:sqs:x:1:{name}-dead", "maxReceiveCount": 3})),
                resource(f"module.sqs[{key}].aws_sqs_queue.dead", name=f"{name}-dead")]}
                for key, name in zip(keys, names)]
            wired = [resource(f"{kind}.it[{key}]", of=kind, **more) for key in (*keys, '"none"') for kind, more in (
                ("aws_lambda_event_source_mapping", {"function_name": f"f{key}".replace('"', "")}),
                ("aws_sns_topic_subscription", {"protocol": "sqs", "topic_arn": f"t{key}".replace('"', "")}))]
            found = [configured("aws_lambda_event_source_mapping.it", event_source_arn=["module.sqs", by]),
                     configured("aws_sns_topic_subscription.it", endpoint=["module.sqs", by])]
            text = json.dumps(plan_of(wired, found, modules, sqs={"module": {"resources": [], "outputs": {}}}))
            out, err = self.ends(0, self.run_tool("from-plan", self.write("given", text)))
            actors = {actor["name"]: actor["queue"] for actor in toml_of(out)["actor"]}
            for key, name in zip(keys, names):
                short = key.replace('"', "")
                taken = {queue for actor, queue in actors.items() if actor.startswith((f"f{short}", f"t{short}"))}
                self.assertEqual(taken, {name}, actors)
            self.assertEqual(err.count('it["none"] is left out'), 2, err)

    def test_modules_with_for_each_whose_resources_have_count(self):
        """max_receives is what main.tf says, but for audit, pay and ship, whose number the plan does not have."""
        scenario, err = self.stored("modules/plan.json")
        self.assertEqual(self.dead_letters(scenario), {
            "orders": ("orders-dlq", 3), "in-voices-": ("in-voices--dlq", 6), "mail": ("mail-dlq", 7),
            "audit": ("mail-dlq", 10), "pay": ("pay-dlq", 10), "ship": ("ship-dlq", 10)})
        for queue, by in (("orders", "each.value"), ("mail", "var.redrive_policy")):
            self.assertRegex(err, f"from-plan: {queue}: DEFAULT: max_receives of ., the number of {by}, to which")
        # a dead-letter queue has no actors of its own
        self.assertEqual(len(scenario["actor"]), 12)

    def test_modules_in_modules(self):
        scenario, _ = self.stored("nested/plan.json")
        self.assertEqual(self.dead_letters(scenario), {
            f"{team}-work-{number}-{kind}": (f"{team}-dead", 4)
            for team in "ab" for number in (0, 1) for kind in ("fast", "slow")})

    def test_mappings_and_subscriptions(self):
        """By main.tf: 3 calls at once of batches of 5 for orders, and no limit and batches of 100 for audit."""
        for name in ("wiring/plan.json", "wiring/state.json"):
            scenario, err = self.stored(name)
            self.assertEqual(self.dead_letters(scenario), {"orders": ("orders-failed", 6)})
            actors = [(actor["name"], actor["queue"], actor.get("batch")) for actor in scenario["actor"]]
            self.assertEqual(actors, [
                ("events-to-audit", "audit", None), *((f"audit-all-{i}", "audit", 10) for i in range(1, 6)),
                ("events-to-orders", "orders", None), *((f"work-{i}", "orders", 5) for i in range(1, 4)),
                ("plain-sender", "plain", None), ("plain-worker", "plain", 1)])
            self.assertTrue(all((actor["wait_s"], actor["idle_ms"]) == (20, 1)
                                for actor in scenario["actor"] if actor["kind"] == "consumer"))
            for place, told in (
                    ("aws_lambda_event_source_mapping.work", "its batching window of 2 s is left out"),
                    ("aws_lambda_event_source_mapping.audit", "it does not report batch item failures"),
                    ("aws_lambda_event_source_mapping.audit", "a batch of 10, the most of a scenario, in place of 100"),
                    ('aws_sns_topic_subscription.queues["audit"]', "its filter policy is left out"),
                    ('aws_sns_topic_subscription.queues["orders"]', "the same messages go to audit")):
                self.assertIn(f"from-plan: {place}: {told}", err)
            self.assertIn("from-plan: aws_lambda_event_source_mapping.elsewhere is left out: ", err)
            self.assertNotIn("work: it does not report", err)

    def topic(self, subscribed, more=(), **of_topic):
        """What is made with --v3 of queues that are subscribed to a topic, each with what its subscription has
        besides; `more` are other queues."""
        resources = [resource(f"aws_sqs_queue.{name}", name=name, fifo_queue=name.endswith(".fifo"))
                     for name in (*subscribed, *more)]
        resources += [resource(f"aws_sns_topic_subscription.to_{number}", of="aws_sns_topic_subscription", protocol="sqs",
                               endpoint=ARN + name, **{"topic_arn": "arn:aws:sns:x:1:news", **of_topic, **own})
                      for number, (name, own) in enumerate(subscribed.items())]
        path = self.write("given", json.dumps({"values": {"root_module": {"resources": resources}}}))
        out, err = self.ends(0, self.run_tool("from-plan", path, "--v3", "--latency", "30"))
        scenario = toml_of(out)
        return {actor["queue"]: actor["forward"] for actor in scenario["actor"] if "forward" in actor}, scenario, err

    def test_a_topic_of_several_queues(self):
        """It is a queue, to which its sender sends; its consumer forwards to all queues, to which nobody else sends."""
        forwards, scenario, err = self.topic({"bill": {}, "ship": {}}, more=["other"])
        self.assertEqual(forwards, {"news": ["bill", "ship"]})
        self.assertEqual([queue["name"] for queue in scenario["queue"]], ["bill", "ship", "other", "news"])
        self.assertEqual([(actor["name"], actor["kind"], actor["queue"]) for actor in scenario["actor"]], [
            ("bill-worker", "consumer", "bill"), ("ship-worker", "consumer", "ship"),
            ("other-sender", "producer", "other"), ("other-worker", "consumer", "other"),
            ("news-sender", "producer", "news"), ("news-sends", "consumer", "news")])
        sends = scenario["actor"][-1]
        self.assertEqual([sends[key] for key in ("batch", "wait_s", "service_min_ms", "service_max_ms", "latency_min_ms",
                                                 "latency_max_ms")], [10, 20, 1, 1, 30, 30])
        self.assertIn("from-plan: news: DEFAULT: latency_min_ms and latency_max_ms of 30, how long that takes", err)

    def test_topics_that_are_no_queue(self):
        """One queue, more than ten, queues of both kinds, and one that a filter keeps some messages from."""
        many = {f"q{number}": {} for number in range(11)}
        for subscribed, wanted in (({"a": {}}, {}), (many, {}), ({"a": {}, "b.fifo": {}}, {}),
                                   ({"a": {"filter_policy": "{}"}, "b": {}}, {}),
                                   ({"a": {"filter_policy": "{}"}, "b": {}, "c": {}}, {"news": ["b", "c"]}),
                                   ({"a": {}, "b": {"topic_arn": "arn:aws:sns:x:1:other"}}, {}),
                                   (dict(list(many.items())[:10]), {"news": list(many)[:10]})):
            forwards, scenario, _ = self.topic(subscribed)
            self.assertEqual(forwards, wanted)
            sent = {actor["queue"] for actor in scenario["actor"] if actor["kind"] == "producer"}
            behind = [name for names in wanted.values() for name in names]
            self.assertEqual(sent, (set(subscribed) | set(wanted)) - set(behind))

    def test_names_of_topics(self):
        for topic, queues, name in (("news.fifo", ["a.fifo", "b.fifo"], "news.fifo"), ("a", ["a", "b"], "a-topic"),
                                    ("a.fifo", ["a.fifo", "b.fifo"], "a-topic.fifo"), ("n!", ["a", "b"], "n--topic"),
                                    ("n" * 99, ["a", "b"], f"{'n' * 74}-topic")):
            forwards, _, _ = self.topic(dict.fromkeys(queues, {}), topic_arn=f"arn:aws:sns:x:1:{topic}")
            self.assertEqual(forwards, {name: queues})

    def test_topics_that_a_plan_or_a_template_refers_to(self):
        """Two subscriptions are of one topic if they refer to the same, in a loop for the same key."""
        queues = [resource(f"aws_sqs_queue.{name}", name=name) for name in "abcd"]
        subscriptions = [resource(f"aws_sns_topic_subscription.{own}", of="aws_sns_topic_subscription", protocol="sqs",
                                  endpoint=ARN + name)
                         for own, name in (("one", "a"), ("two", "b"), ('each["x"]', "c"), ('each["y"]', "d"))]
        known = {"one": ["aws_sns_topic.t.arn", "aws_sns_topic.t"], "two": ["aws_sns_topic.t.arn", "aws_sns_topic.t"],
                 "each": ["aws_sns_topic.u", "each.key"]}
        plan = plan_of(queues + subscriptions, [configured(f"aws_sns_topic_subscription.{name}", topic_arn=found)
                                                for name, found in known.items()])
        template = {"Resources": {
            **{name.upper(): {"Type": "AWS::SQS::Queue", "Properties": {"QueueName": name}} for name in "abc"},
            "t": {"Type": "AWS::SNS::Topic", "Properties": {"Subscription": [
                {"Protocol": "sqs", "Endpoint": {"Fn::GetAtt": ["A", "Arn"]}}]}},
            "S": {"Type": "AWS::SNS::Subscription", "Properties": {
                "Protocol": "sqs", "TopicArn": {"Ref": "t"}, "Endpoint": {"Fn::GetAtt": ["B", "Arn"]}}},
            "Other": {"Type": "AWS::SNS::Subscription", "Properties": {
                "Protocol": "sqs", "TopicArn": {"Ref": "u"}, "Endpoint": {"Fn::GetAtt": ["C", "Arn"]}}}}}
        for given in plan, template:
            out, err = self.ends(0, self.run_tool("from-plan", self.write("given", json.dumps(given)), "--preview"))
            self.assertEqual({actor["queue"]: actor["forward"] for actor in toml_of(out)["actor"] if "forward" in actor},
                             {"t": ["a", "b"]})

    def test_mappings_in_version_3(self):
        """By main.tf the function of orders reports batch item failures, and that of audit does not."""
        path = os.path.join(PLANS, "wiring", "plan.json")
        without, plain_err = self.stored("wiring/plan.json")
        status, out, err = self.run_tool("from-plan", path, "--v3")
        self.assertEqual(self.run_tool("from-plan", path, "--preview"), (status, out, err))
        scenario = toml_of(out)
        self.assertEqual((status, scenario["version"], without["version"]), (0, 3, 1))
        self.assertIn("here each message fails by itself, and with --v3 its batch does\n", plain_err)
        self.assertIn("# This has version 3 of scenarios: run it with --v3.\n", out)
        self.assertEqual({actor["queue"]: actor.get("batch_fails") for actor in scenario["actor"]
                          if actor["kind"] == "consumer"}, {"audit": "whole", "orders": "each", "plain": None})
        self.assertEqual([(queue["latency_min_ms"], queue["latency_max_ms"]) for queue in scenario["queue"]
                          if "dead_letter" in queue], [(100, 100)])
        # What is told otherwise, and what else the scenarios have, is the same.
        self.assertEqual([line for line in plain_err.splitlines() if "latency" not in line and
                          "does not report" not in line], [line for line in err.splitlines() if "latency" not in line])
        for actor in scenario["actor"]:
            actor.pop("batch_fails", None)
        self.assertEqual(scenario["actor"], without["actor"])
        if PROGRAM:
            self.write("s.toml", out)
            self.assertEqual(printed("check", "--preview", self.path("s.toml")),
                             "ok queues=4 actors=12 tasks=0 least=100\n")

    def test_sam_and_conditions(self):
        """By the parameter Stage the queue Extra is there, and the visibility timeout of Jobs is given."""
        made = toml_of(self.made(SAM))
        self.assertEqual([(queue["name"], queue.get("visibility_s")) for queue in made["queue"]], [("Jobs", None)])
        self.assertEqual([(actor["name"], actor["queue"], actor.get("batch")) for actor in made["actor"]],
                         [("News-to-Jobs", "Jobs", None), ("Work-1", "Jobs", 4), ("Work-2", "Jobs", 4)])
        made = toml_of(self.made(SAM, "--parameter", "Stage=prod"))
        self.assertEqual([(queue["name"], queue.get("visibility_s")) for queue in made["queue"]],
                         [("Jobs", 90), ("Extra", 70)])
        self.assertEqual([(actor["name"], actor["queue"], actor.get("batch")) for actor in made["actor"][3:]],
                         [("Extra-sender", "Extra", None), *((f"Old-{i}", "Extra", 10) for i in range(1, 6))])
        for words, line in ((("--parameter", "Stage"), "Stage is no parameter, as Stage=prod"),
                            (("--parameter", "Other=1"), "the template has no parameter Other")):
            self.assert_fault(self.run_tool("from-plan", self.write("given", SAM), *words), f"from-plan: {line}")
        for number, told in (("0x" + "f" * 4_000, "a number has too many digits"), ("!!int ''", None),
                             (":".join("1" * 3_000), "a number has too many digits")):
            path = self.write("number", "Resources:\n  Q:\n    Type: AWS::SQS::Queue\n"
                                        f"    Properties: {{VisibilityTimeout: {number}}}\n")
            err = self.refusal(self.run_tool("from-plan", path))
            self.assertIn(f"{path} is neither JSON nor YAML: {told or ''}", err)
        self.assert_fault(self.run_tool("from-plan", self.write("given", PLAN), "--parameter", "a=b"),
                          "from-plan: --parameter goes with a template; a plan has the values of its variables")

    def test_template(self):
        self.assertTrue(self.made(TEMPLATE, "--latency", "7").startswith(f"\n{TEMPLATE_TABLES}"))

    def test_files_of_other_kinds(self):
        for data in (b"\x00\xff", bytes(range(256)), b"{" * 100_000, b"[" * 100_000, b"- " * 100_000, b"a: !x {b: [",
                     b"\xff\xfea", b'{"Resources": {"A"', b"{\"values\": " + b"9" * 9_000 + b"}", b"? [a]\n: b\n",
                     b'{"values": {"root_module": {"resources": [5, {"type": "aws_sqs_queue", "values": 3}]}}}',
                     b'{"Resources": {"A": {"Type": ["AWS::SQS::Queue"]}}}',
                     b'{"Resources": {"A": {"Type": "AWS::Serverless::Function", "Properties": {"Events": {"E": 1}}}}}',
                     b"Resources: {A: {Type: 'AWS::SQS::Queue', Properties: {DelaySeconds: [1]}}}"):
            self.write("given", data)
            with self.subTest(data=data[:40]):
                self.refusal(self.run_tool("from-plan", "given"))

    def test_plans_with_other_values(self):
        """Some value of a stored plan or template is another one: that is a scenario or a fault, and no traceback."""
        chance, ends = random.Random(7), []
        documents = [json.loads(text_at(PLANS, name)) for name in STORED]
        for _ in range(300):
            document = copy.deepcopy(chance.choice(documents))
            for _ in range(chance.choice((1, 1, 3))):
                change(document, chance)
            path, told = self.write("given", json.dumps(document)), io.StringIO()
            with contextlib.redirect_stdout(io.StringIO()), contextlib.redirect_stderr(told):
                try:
                    ends.append(from_plan.main([path]))
                except Fault as fault:
                    ends.append(str(fault))
            self.assertNotIn("Traceback", told.getvalue())
        self.assertGreater(ends.count(0), 150)

    def test_without_its_library(self):
        """If the library is missing, the error names its package; JSON needs none."""
        code = "import sys; sys.modules['yaml'] = None; sys.argv[0] = sys.argv.pop(1); import runpy; " \
               "runpy.run_path(sys.argv[0], run_name='__main__')"
        for text, called, wanted in ((TEMPLATE, "", "tools/setup"), (PLAN, "", None),
                                     (TEMPLATE, "sqs_rehearse from-plan", "sqs_rehearse setup")):
            command = [sys.executable, "-c", code, os.path.join(TOOLS, "from-plan"), self.write("given", text)]
            environment = {**os.environ, "PYTHONPATH": TOOLS, "SQS_REHEARSE_TOOL": called}
            _, err = self.ends(2 if wanted else 0, ran(command, env=environment))
            if wanted:
                self.assertEqual(err, f"{called or 'from-plan'}: the library yaml is missing: Debian's package "
                                 f"python3-yaml has it for Debian's python3, and {wanted} installs it\n")

    @needs_program
    def test_what_is_made_runs(self):
        for text in (PLAN, TEMPLATE):
            self.assertEqual(self.run_tool("from-plan", self.write("given", text), "--output", "s.toml")[0], 0)
            run = printed("run", "--log", os.devnull, self.path("s.toml"))
            sends = [line.split(",")[1:3] for line in run.splitlines() if line.startswith("report,")][1:]
            # Each queue that takes no dead letters is sent a message a second, all through the hour.
            self.assertEqual([3_500 <= int(count) <= 3_600 or count for _, count in sends], [True, "0", True, "0"])

    @needs_program
    def test_long_names_and_many_queues(self):
        """Names of actors are cut, and stay distinct."""
        values = [resource(f"aws_sqs_queue.q{i}", name=("n" * 75) + f"{i:05}") for i in range(12)]
        plan = {"planned_values": {"root_module": {"resources": values}}}
        path = self.write("given", json.dumps(plan))
        self.assertEqual(self.run_tool("from-plan", path, "--output", "s.toml")[0], 0)
        self.assertEqual(printed("check", self.path("s.toml")), "ok queues=12 actors=24 tasks=0 least=3600001\n")
