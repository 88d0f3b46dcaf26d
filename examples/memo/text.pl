# A memo as plain text: sgmlesis memo.sgm | sgmlspl ./text.pl
use SGMLS;
use SGMLS::Output;

sgml('<TO>', 'To:      ');
sgml('</TO>', "\n");
sgml('<FROM>', 'From:    ');
sgml('</FROM>', "\n");
sgml('<DATE>', 'Date:    ');
sgml('</DATE>', "\n");
sgml('<SUBJECT>', 'Subject: ');
sgml('</SUBJECT>', "\n");
sgml('<P>', "\n");
sgml('</P>', "\n");
sgml('<TERM>', '*');
sgml('</TERM>', '*');
sgml('<ITEM>', '- ');
sgml('</ITEM>', "\n");
sgml('cdata', sub { output $_[0]; });
sgml('re', ' ');
sgml('conforming', '');
1;
