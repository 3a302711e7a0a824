# Checks at limits. The files were written by a loop.
words: check

=== nested_too_deep
# 300 signs `!` before a number.
--- /m.c
int f() { return !!!!!!!!!!!!!!!!!!!!!!!!!!!!!!!!!!!!!!!!!!!!!!!!!!!!!!!!!!!!!!!!!!!!!!!!!!!!!!!!!!!!!!!!!!!!!!!!!!!!!!!!!!!!!!!!!!!!!!!!!!!!!!!!!!!!!!!!!!!!!!!!!!!!!!!!!!!!!!!!!!!!!!!!!!!!!!!!!!!!!!!!!!!!!!!!!!!!!!!!!!!!!!!!!!!!!!!!!!!!!!!!!!!!!!!!!!!!!!!!!!!!!!!!!!!!!!!!!!!!!!!!!!!!!!!!!!!!!!!!!!!!!!!!!!!!!!!!!!!!1; }
--- written
/m.c line 1: nested too deep
1 files, 1 faults

=== macros_64_deep
# 64 macros, of which each stands for the next: just not too deep.
--- /m.c
#define M1 M2
#define M2 M3
#define M3 M4
#define M4 M5
#define M5 M6
#define M6 M7
#define M7 M8
#define M8 M9
#define M9 M10
#define M10 M11
#define M11 M12
#define M12 M13
#define M13 M14
#define M14 M15
#define M15 M16
#define M16 M17
#define M17 M18
#define M18 M19
#define M19 M20
#define M20 M21
#define M21 M22
#define M22 M23
#define M23 M24
#define M24 M25
#define M25 M26
#define M26 M27
#define M27 M28
#define M28 M29
#define M29 M30
#define M30 M31
#define M31 M32
#define M32 M33
#define M33 M34
#define M34 M35
#define M35 M36
#define M36 M37
#define M37 M38
#define M38 M39
#define M39 M40
#define M40 M41
#define M41 M42
#define M42 M43
#define M43 M44
#define M44 M45
#define M45 M46
#define M46 M47
#define M47 M48
#define M48 M49
#define M49 M50
#define M50 M51
#define M51 M52
#define M52 M53
#define M53 M54
#define M54 M55
#define M55 M56
#define M56 M57
#define M57 M58
#define M58 M59
#define M59 M60
#define M60 M61
#define M61 M62
#define M62 M63
#define M63 M64
#define M64 7
int f() { return M1; }
--- written
1 files, 0 faults

=== macros_65_deep
# One more is too deep. The line is that of the use.
--- /m.c
#define M1 M2
#define M2 M3
#define M3 M4
#define M4 M5
#define M5 M6
#define M6 M7
#define M7 M8
#define M8 M9
#define M9 M10
#define M10 M11
#define M11 M12
#define M12 M13
#define M13 M14
#define M14 M15
#define M15 M16
#define M16 M17
#define M17 M18
#define M18 M19
#define M19 M20
#define M20 M21
#define M21 M22
#define M22 M23
#define M23 M24
#define M24 M25
#define M25 M26
#define M26 M27
#define M27 M28
#define M28 M29
#define M29 M30
#define M30 M31
#define M31 M32
#define M32 M33
#define M33 M34
#define M34 M35
#define M35 M36
#define M36 M37
#define M37 M38
#define M38 M39
#define M39 M40
#define M40 M41
#define M41 M42
#define M42 M43
#define M43 M44
#define M44 M45
#define M45 M46
#define M46 M47
#define M47 M48
#define M48 M49
#define M49 M50
#define M50 M51
#define M51 M52
#define M52 M53
#define M53 M54
#define M54 M55
#define M55 M56
#define M56 M57
#define M57 M58
#define M58 M59
#define M59 M60
#define M60 M61
#define M61 M62
#define M62 M63
#define M63 M64
#define M64 M65
#define M65 7
int f() { return M1; }
--- written
/m.c line 66: macros too deep
1 files, 1 faults

=== inherits_64_deep
# 64 loads may be under way for an `inherit`, one inside another.
--- /p10.c
inherit "/p11";
--- /p11.c
inherit "/p12";
--- /p12.c
inherit "/p13";
--- /p13.c
inherit "/p14";
--- /p14.c
inherit "/p15";
--- /p15.c
inherit "/p16";
--- /p16.c
inherit "/p17";
--- /p17.c
inherit "/p18";
--- /p18.c
inherit "/p19";
--- /p19.c
inherit "/p20";
--- /p20.c
inherit "/p21";
--- /p21.c
inherit "/p22";
--- /p22.c
inherit "/p23";
--- /p23.c
inherit "/p24";
--- /p24.c
inherit "/p25";
--- /p25.c
inherit "/p26";
--- /p26.c
inherit "/p27";
--- /p27.c
inherit "/p28";
--- /p28.c
inherit "/p29";
--- /p29.c
inherit "/p30";
--- /p30.c
inherit "/p31";
--- /p31.c
inherit "/p32";
--- /p32.c
inherit "/p33";
--- /p33.c
inherit "/p34";
--- /p34.c
inherit "/p35";
--- /p35.c
inherit "/p36";
--- /p36.c
inherit "/p37";
--- /p37.c
inherit "/p38";
--- /p38.c
inherit "/p39";
--- /p39.c
inherit "/p40";
--- /p40.c
inherit "/p41";
--- /p41.c
inherit "/p42";
--- /p42.c
inherit "/p43";
--- /p43.c
inherit "/p44";
--- /p44.c
inherit "/p45";
--- /p45.c
inherit "/p46";
--- /p46.c
inherit "/p47";
--- /p47.c
inherit "/p48";
--- /p48.c
inherit "/p49";
--- /p49.c
inherit "/p50";
--- /p50.c
inherit "/p51";
--- /p51.c
inherit "/p52";
--- /p52.c
inherit "/p53";
--- /p53.c
inherit "/p54";
--- /p54.c
inherit "/p55";
--- /p55.c
inherit "/p56";
--- /p56.c
inherit "/p57";
--- /p57.c
inherit "/p58";
--- /p58.c
inherit "/p59";
--- /p59.c
inherit "/p60";
--- /p60.c
inherit "/p61";
--- /p61.c
inherit "/p62";
--- /p62.c
inherit "/p63";
--- /p63.c
inherit "/p64";
--- /p64.c
inherit "/p65";
--- /p65.c
inherit "/p66";
--- /p66.c
inherit "/p67";
--- /p67.c
inherit "/p68";
--- /p68.c
inherit "/p69";
--- /p69.c
inherit "/p70";
--- /p70.c
inherit "/p71";
--- /p71.c
inherit "/p72";
--- /p72.c
inherit "/p73";
--- /p73.c
inherit "/p74";
--- /p74.c
--- written
65 files, 0 faults

=== inherits_65_deep
# One more is a fault of the file that has it.
--- /p10.c
inherit "/p11";
--- /p11.c
inherit "/p12";
--- /p12.c
inherit "/p13";
--- /p13.c
inherit "/p14";
--- /p14.c
inherit "/p15";
--- /p15.c
inherit "/p16";
--- /p16.c
inherit "/p17";
--- /p17.c
inherit "/p18";
--- /p18.c
inherit "/p19";
--- /p19.c
inherit "/p20";
--- /p20.c
inherit "/p21";
--- /p21.c
inherit "/p22";
--- /p22.c
inherit "/p23";
--- /p23.c
inherit "/p24";
--- /p24.c
inherit "/p25";
--- /p25.c
inherit "/p26";
--- /p26.c
inherit "/p27";
--- /p27.c
inherit "/p28";
--- /p28.c
inherit "/p29";
--- /p29.c
inherit "/p30";
--- /p30.c
inherit "/p31";
--- /p31.c
inherit "/p32";
--- /p32.c
inherit "/p33";
--- /p33.c
inherit "/p34";
--- /p34.c
inherit "/p35";
--- /p35.c
inherit "/p36";
--- /p36.c
inherit "/p37";
--- /p37.c
inherit "/p38";
--- /p38.c
inherit "/p39";
--- /p39.c
inherit "/p40";
--- /p40.c
inherit "/p41";
--- /p41.c
inherit "/p42";
--- /p42.c
inherit "/p43";
--- /p43.c
inherit "/p44";
--- /p44.c
inherit "/p45";
--- /p45.c
inherit "/p46";
--- /p46.c
inherit "/p47";
--- /p47.c
inherit "/p48";
--- /p48.c
inherit "/p49";
--- /p49.c
inherit "/p50";
--- /p50.c
inherit "/p51";
--- /p51.c
inherit "/p52";
--- /p52.c
inherit "/p53";
--- /p53.c
inherit "/p54";
--- /p54.c
inherit "/p55";
--- /p55.c
inherit "/p56";
--- /p56.c
inherit "/p57";
--- /p57.c
inherit "/p58";
--- /p58.c
inherit "/p59";
--- /p59.c
inherit "/p60";
--- /p60.c
inherit "/p61";
--- /p61.c
inherit "/p62";
--- /p62.c
inherit "/p63";
--- /p63.c
inherit "/p64";
--- /p64.c
inherit "/p65";
--- /p65.c
inherit "/p66";
--- /p66.c
inherit "/p67";
--- /p67.c
inherit "/p68";
--- /p68.c
inherit "/p69";
--- /p69.c
inherit "/p70";
--- /p70.c
inherit "/p71";
--- /p71.c
inherit "/p72";
--- /p72.c
inherit "/p73";
--- /p73.c
inherit "/p74";
--- /p74.c
inherit "/p75";
--- /p75.c
--- written
/p74.c line 1: inherits too deep
66 files, 1 faults

=== parents_that_were_loaded_before
# A parent that was loaded before is no such load.
--- /p10.c
--- /p11.c
inherit "/p10";
--- /p12.c
inherit "/p11";
--- /p13.c
inherit "/p12";
--- /p14.c
inherit "/p13";
--- /p15.c
inherit "/p14";
--- /p16.c
inherit "/p15";
--- /p17.c
inherit "/p16";
--- /p18.c
inherit "/p17";
--- /p19.c
inherit "/p18";
--- /p20.c
inherit "/p19";
--- /p21.c
inherit "/p20";
--- /p22.c
inherit "/p21";
--- /p23.c
inherit "/p22";
--- /p24.c
inherit "/p23";
--- /p25.c
inherit "/p24";
--- /p26.c
inherit "/p25";
--- /p27.c
inherit "/p26";
--- /p28.c
inherit "/p27";
--- /p29.c
inherit "/p28";
--- /p30.c
inherit "/p29";
--- /p31.c
inherit "/p30";
--- /p32.c
inherit "/p31";
--- /p33.c
inherit "/p32";
--- /p34.c
inherit "/p33";
--- /p35.c
inherit "/p34";
--- /p36.c
inherit "/p35";
--- /p37.c
inherit "/p36";
--- /p38.c
inherit "/p37";
--- /p39.c
inherit "/p38";
--- /p40.c
inherit "/p39";
--- /p41.c
inherit "/p40";
--- /p42.c
inherit "/p41";
--- /p43.c
inherit "/p42";
--- /p44.c
inherit "/p43";
--- /p45.c
inherit "/p44";
--- /p46.c
inherit "/p45";
--- /p47.c
inherit "/p46";
--- /p48.c
inherit "/p47";
--- /p49.c
inherit "/p48";
--- /p50.c
inherit "/p49";
--- /p51.c
inherit "/p50";
--- /p52.c
inherit "/p51";
--- /p53.c
inherit "/p52";
--- /p54.c
inherit "/p53";
--- /p55.c
inherit "/p54";
--- /p56.c
inherit "/p55";
--- /p57.c
inherit "/p56";
--- /p58.c
inherit "/p57";
--- /p59.c
inherit "/p58";
--- /p60.c
inherit "/p59";
--- /p61.c
inherit "/p60";
--- /p62.c
inherit "/p61";
--- /p63.c
inherit "/p62";
--- /p64.c
inherit "/p63";
--- /p65.c
inherit "/p64";
--- /p66.c
inherit "/p65";
--- /p67.c
inherit "/p66";
--- /p68.c
inherit "/p67";
--- /p69.c
inherit "/p68";
--- /p70.c
inherit "/p69";
--- /p71.c
inherit "/p70";
--- /p72.c
inherit "/p71";
--- /p73.c
inherit "/p72";
--- /p74.c
inherit "/p73";
--- /p75.c
inherit "/p74";
--- /p76.c
inherit "/p75";
--- /p77.c
inherit "/p76";
--- /p78.c
inherit "/p77";
--- /p79.c
inherit "/p78";
--- /p80.c
inherit "/p79";
--- /p81.c
inherit "/p80";
--- /p82.c
inherit "/p81";
--- /p83.c
inherit "/p82";
--- /p84.c
inherit "/p83";
--- /p85.c
inherit "/p84";
--- /p86.c
inherit "/p85";
--- /p87.c
inherit "/p86";
--- /p88.c
inherit "/p87";
--- /p89.c
inherit "/p88";
--- /p90.c
inherit "/p89";
--- /p91.c
inherit "/p90";
--- /p92.c
inherit "/p91";
--- /p93.c
inherit "/p92";
--- /p94.c
inherit "/p93";
--- /p95.c
inherit "/p94";
--- /p96.c
inherit "/p95";
--- /p97.c
inherit "/p96";
--- /p98.c
inherit "/p97";
--- /p99.c
inherit "/p98";
--- written
90 files, 0 faults
