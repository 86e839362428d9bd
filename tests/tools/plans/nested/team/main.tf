variable "name" {}
variable "receives" {}
module "dead" {
  source = "../dead"
  name   = "${var.name}-dead"
}
module "work" {
  source   = "../work"
  count    = 2
  name     = "${var.name}-work-${count.index}"
  dead_arn = module.dead.arn
  receives = var.receives
}
