# A module of the kernel is loaded, now and after each boot.
Configuration Recipe {
 Node 'web1' {
  File Module {
   DestinationPath = '/etc/modules-load.d/br_netfilter.conf'
   Contents = 'br_netfilter
'
  }

  Command Module {
   Name = 'module br_netfilter'
   TestProgram = 'test'
   TestArguments = @('-d', '/sys/module/br_netfilter')
   SetProgram = 'modprobe'
   SetArguments = @('br_netfilter')
   DependsOn = @('[File]Module')
  }
 }
}
