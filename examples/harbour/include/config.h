// Where things lie, and the numbers of the game.

#define ACCOUNTS      "/secure/accounts"
#define WIZARDS       "/secure/wizards"
#define LOGIN         "/obj/login"
#define PLAYER        "/obj/player"
#define WIZTOOL       "/obj/wiztool"
#define BOARD         "/obj/board"

#define START_ROOM    "/area/town/square"
#define INFIRMARY     "/area/town/chapel"

#define ACCOUNT_SAVE  "/save/accounts/"
#define PLAYER_SAVE   "/save/players/"
#define BOARD_SAVE    "/save/board"
#define LOG           "/log/"
#define TEXT          "/text/"

#define MAX_CARRIED   20        // things in one pair of hands
#define MAX_SHOWN     40        // things and players that `look` names
#define LOGIN_SECONDS 180       // so long a visitor may take to log in
#define SLEEP_SECONDS 60        // so long a player whose line was cut stays
#define SAVE_SECONDS  600       // between two savings of a player
#define MAX_LOG       40000     // bytes of a log file, which then begins anew
