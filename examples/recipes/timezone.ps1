# The time zone of the machine.
Configuration Recipe {
 Node 'web1' {
  Command TimeZone {
   Name = 'time zone'
   TestProgram = 'sh'
   TestArguments = @('-c', 'test "$(readlink --canonicalize /etc/localtime)" = "$(readlink --canonicalize "/usr/share/zoneinfo/$1")"', 'timezone', 'Europe/Vienna')
   SetProgram = 'ln'
   SetArguments = @('-snf', '/usr/share/zoneinfo/Europe/Vienna', '/etc/localtime')
  }
 }
}
