# The package sl of apt is installed.
Configuration Recipe {
 Node 'web1' {
  Command Package {
   Name = 'package sl'
   TestProgram = 'sh'
   TestArguments = @('-c', 'test "$(dpkg-query --show --showformat=''${db:Status-Status}'' "$1" 2> /dev/null)" = installed', 'package', 'sl')
   SetProgram = 'sh'
   SetArguments = @('-c', 'export DEBIAN_FRONTEND=noninteractive
timeout 600 apt-get --quiet update
timeout 3000 apt-get --quiet --yes --option DPkg::Lock::Timeout=600 install "$1"', 'package', 'sl')
  }
 }
}
