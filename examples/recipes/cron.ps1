# A job of cron, as a file of its own, which cron reads where root owns it and nobody else may write it.
Configuration Recipe {
 Node 'web1' {
  File Job {
   DestinationPath = '/etc/cron.d/tidy'
   Contents = '30 4 * * * root find /var/tmp/app -mtime +7 -delete
'
  }

  Command Job {
   Name = 'owner and mode of /etc/cron.d/tidy'
   TestProgram = 'sh'
   TestArguments = @('-c', 'test "$(stat --format=''%U:%G %a'' "$1")" = "$2 $3"', 'mode', '/etc/cron.d/tidy', 'root:root', '644')
   SetProgram = 'sh'
   SetArguments = @('-c', 'chown "$2" "$1" && chmod "$3" "$1"', 'mode', '/etc/cron.d/tidy', 'root:root', '644')
   DependsOn = @('[File]Job')
  }
 }
}
