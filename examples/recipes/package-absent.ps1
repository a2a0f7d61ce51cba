# The package telnet of apt is not installed; its settings may stay.
Configuration Recipe {
 Node 'web1' {
  Command NoPackage {
   Name = 'no package telnet'
   TestProgram = 'sh'
   TestArguments = @('-c', 'test "$(dpkg-query --show --showformat=''${db:Status-Status}'' "$1" 2> /dev/null)" != installed', 'package-absent', 'telnet')
   SetProgram = 'sh'
   SetArguments = @('-c', 'export DEBIAN_FRONTEND=noninteractive
timeout 3000 apt-get --quiet --yes --option DPkg::Lock::Timeout=600 remove "$1"', 'package-absent', 'telnet')
  }
 }
}
