module "team" {
  source   = "./team"
  for_each = toset(["a", "b"])
  name     = each.key
  receives = 4
}
