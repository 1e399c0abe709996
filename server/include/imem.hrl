%% What the modules of the server share.

%% All that the server logs has this domain.
-define(DOMAIN, #{domain => [imem]}).

-define(MOST_OF_A_LINE, 4096).      % bytes, as in a dialogue

%% A line that was looked at and may be asked. kind: how its answer is read; text: its words, with single spaces.
-record(asked, {
    kind :: request | again | confirm | look | turn | backup,
    element = none :: imem_lines:element() | none,
    number = none :: non_neg_integer() | none,
    text :: binary()
}).

%% A line in a queue or in a pipe, and whose it is. Of a check, `key` is the answer that there has to be.
-record(query, {from :: pid() | check, key :: imem_module:key(), asked :: imem_lines:asked()}).
