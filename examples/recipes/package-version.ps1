# The package sl of apt is installed at this version, and no upgrade changes it.
Configuration Recipe {
 Node 'web1' {
  Command PackageVersion {
   Name = 'package sl at a version'
   TestProgram = 'sh'
   TestArguments = @('-c', 'test "$(dpkg-query --show --showformat=''${Status} ${Version}'' "$1" 2> /dev/null)" = "hold ok installed $2"', 'package-version', 'sl', '5.02-1+b1')
   SetProgram = 'sh'
   SetArguments = @('-c', 'export DEBIAN_FRONTEND=noninteractive
timeout 600 apt-get --quiet update
timeout 3000 apt-get --quiet --yes --allow-downgrades --allow-change-held-packages --option DPkg::Lock::Timeout=600 \
    install "$1=$2" && apt-mark hold "$1"', 'package-version', 'sl', '5.02-1+b1')
  }
 }
}
