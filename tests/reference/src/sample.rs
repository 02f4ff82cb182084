//! The worked file of the specification and its whole outputs. All its cells are whole, so no other output is right.

pub const INPUT: &str = "\
month,ons
202407,100
agent,pb,pv,afs,rfs,pa,ret
1,1000,0,0,0,0,4
2,2000,30,0,0,25,0
user,kind,ret,ong
1,2,0,0
2,3,0,0
at,tp,tf,dp,df,mp,mf,vp,vf
1,1000,500,0,0,3,2,3,2
2,2000,0,50,0,16,0,16,0
";

pub const OUTPUT: &str = "\
month,payee,user,cents
202407,1,1,127
202407,1,2,508
202407,2,1,247
202407,2,2,988
202407,ons,1,20
202407,ons,2,80
202407,held,1,0
202407,held,2,0
";

/// What `consulta` prints for the same file.
pub const CONSULTA: &str = "\
month,item,payee,user,point,cents
202407,use,,1,1,400
202407,overrun,,1,1,0
202407,use,,2,2,1600
202407,overrun,,2,2,0
202407,EUST,,1,,400
202407,overruns,,1,,0
202407,ret,,1,,0
202407,VME,,1,,400
202407,CPV,,1,,6
202407,held_before,,1,,0
202407,n,,1,,394
202407,VD,,1,,394
202407,held_after,,1,,0
202407,ong,,1,,0
202407,EUST,,2,,1600
202407,overruns,,2,,0
202407,ret,,2,,0
202407,VME,,2,,1600
202407,CPV,,2,,24
202407,held_before,,2,,0
202407,n,,2,,1576
202407,VD,,2,,1576
202407,held_after,,2,,0
202407,ong,,2,,0
202407,VMST,1,,,1000
202407,VMPA,1,,,0
202407,VMANT,1,,,-369
202407,ret,1,,,4
202407,VC,1,,,635
202407,VMST,2,,,1970
202407,VMPA,2,,,2
202407,VMANT,2,,,-737
202407,ret,2,,,0
202407,VC,2,,,1235
202407,ons,ons,,,100
202407,VC,ons,,,100
202407,SMSE,,,,-1106
202407,cell,1,1,,127
202407,cell,1,2,,508
202407,cell,2,1,,247
202407,cell,2,2,,988
202407,cell,ons,1,,20
202407,cell,ons,2,,80
";
