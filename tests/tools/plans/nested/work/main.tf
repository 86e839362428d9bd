variable "name" {}
variable "dead_arn" {}
variable "receives" { default = 9 }
resource "aws_sqs_queue" "this" {
  for_each       = toset(["fast", "slow"])
  name           = "${var.name}-${each.key}"
  redrive_policy = jsonencode({ deadLetterTargetArn = var.dead_arn, maxReceiveCount = var.receives })
}
