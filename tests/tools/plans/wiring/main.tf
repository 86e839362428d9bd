variable "receives" { default = 6 }
resource "aws_sqs_queue" "failed" { name = "orders-failed" }
resource "aws_sqs_queue" "orders" {
  name                       = "orders"
  visibility_timeout_seconds = 360
  redrive_policy = jsonencode({ deadLetterTargetArn = aws_sqs_queue.failed.arn, maxReceiveCount = var.receives })
}
resource "aws_sqs_queue" "audit" { name = "audit" }
resource "aws_sqs_queue" "plain" { name = "plain" }
resource "aws_lambda_function" "work" {
  function_name = "work"
  timeout       = 60
}
resource "aws_lambda_event_source_mapping" "work" {
  event_source_arn                   = aws_sqs_queue.orders.arn
  function_name                      = aws_lambda_function.work.arn
  batch_size                         = 5
  maximum_batching_window_in_seconds = 2
  function_response_types            = ["ReportBatchItemFailures"]
  scaling_config { maximum_concurrency = 3 }
}
resource "aws_lambda_event_source_mapping" "audit" {
  event_source_arn = aws_sqs_queue.audit.arn
  function_name    = "audit-all"
  batch_size       = 100
}
resource "aws_lambda_event_source_mapping" "elsewhere" {
  event_source_arn = "arn:aws:sqs:eu-central-1:123456789012:other"
  function_name    = aws_lambda_function.work.arn
}
resource "aws_sns_topic" "events" { name = "events" }
resource "aws_sns_topic_subscription" "queues" {
  for_each             = { orders = aws_sqs_queue.orders.arn, audit = aws_sqs_queue.audit.arn }
  topic_arn            = aws_sns_topic.events.arn
  protocol             = "sqs"
  endpoint             = each.value
  raw_message_delivery = true
  filter_policy        = each.key == "audit" ? jsonencode({ kind = ["paid"] }) : null
}
resource "aws_sns_topic_subscription" "mail" {
  topic_arn = aws_sns_topic.events.arn
  protocol  = "email"
  endpoint  = "team@example.com"
}
