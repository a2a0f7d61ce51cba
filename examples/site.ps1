# Three machines of a site. `nimchout-node - - compile web1 < site.ps1` prints the document of one.
Configuration Site {

 Node 'web1', 'web2', 'db1' {
  File Motd {
   DestinationPath = '/etc/motd'
   Contents = 'This machine is managed: don''t edit below /srv.
'
  }
 }

 Node 'web1', 'web2' {
  File Pages { DestinationPath = '/srv/web'; Type = 'Directory' }
  File FrontPage {
   DestinationPath = '/srv/web/index.html'
   Contents = "<p>It's up.</p>
"
   DependsOn = '[File]Pages'
  }
 }

 Node 'db1' {
  Environment Data { Name = 'SITE_DATA'; Value = '/srv/data'; Ensure = 'Present' }
  File Data { DestinationPath = '/srv/data'; Type = 'Directory' }
  File Old { DestinationPath = '/srv/old'; Type = 'Directory'; Ensure = 'Absent'; Force = $true }
  Log Ready {
   Message = 'The folder of the database is there.'
   DependsOn = @('[Environment]Data', '[File]Data')
  }
 }
}
