locals { teams = { pay = 3, ship = 5 } }
module "team" {
  source                     = "./sqs"
  for_each                   = { orders = 3, "in.voices]" = 6 }
  name                       = replace(each.key, "/[^a-z]/", "-")
  visibility_timeout_seconds = 60
  create_dlq                 = true
  redrive_policy             = { maxReceiveCount = each.value }
}
module "mail" {
  source         = "./sqs"
  name           = "mail"
  create_dlq     = true
  redrive_policy = { maxReceiveCount = 7 }
}
module "audit" {
  source         = "./sqs"
  name           = "audit"
  redrive_policy = { deadLetterTargetArn = module.mail.dead_letter_queue_arn, maxReceiveCount = 4 }
}
module "later" {
  source         = "./sqs"
  for_each       = local.teams
  name           = each.key
  create_dlq     = true
  redrive_policy = { maxReceiveCount = each.value }
}
