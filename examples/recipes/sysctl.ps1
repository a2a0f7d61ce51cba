# A setting of the kernel, now and after each boot.
Configuration Recipe {
 Node 'web1' {
  File Setting {
   DestinationPath = '/etc/sysctl.d/60-swappiness.conf'
   Contents = 'vm.swappiness = 10
'
  }

  Command Setting {
   Name = 'sysctl vm.swappiness'
   TestProgram = 'sh'
   TestArguments = @('-c', 'test "$(sysctl --values "$1")" = "$2"', 'sysctl', 'vm.swappiness', '10')
   SetProgram = 'sysctl'
   SetArguments = @('--quiet', '--write', 'vm.swappiness=10')
   DependsOn = @('[File]Setting')
  }
 }
}
