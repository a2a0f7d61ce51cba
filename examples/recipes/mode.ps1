# A file, and who may read it.
Configuration Recipe {
 Node 'web1' {
  File Secret {
   DestinationPath = '/etc/app-secret.conf'
  }

  Command Mode {
   Name = 'owner and mode of /etc/app-secret.conf'
   TestProgram = 'sh'
   TestArguments = @('-c', 'test "$(stat --format=''%U:%G %a'' "$1")" = "$2 $3"', 'mode', '/etc/app-secret.conf', 'root:adm', '640')
   SetProgram = 'sh'
   SetArguments = @('-c', 'chown "$2" "$1" && chmod "$3" "$1"', 'mode', '/etc/app-secret.conf', 'root:adm', '640')
   DependsOn = @('[File]Secret')
  }
 }
}
