%% A node of OTP's diameter for .ci/node. Its arguments are `listen` or `connect`, and the port. Each line of standard input is an
%% order: `broken` sends an ACR (RFC 6733 section 9.7.1) without its Accounting-Record-Number, and `stop` ends the node.
%% Each event and each answer is a line of standard output.
-module(otp_node).
-export([main/1]).
-export([peer_up/3, peer_down/3, pick_peer/4, prepare_request/3, prepare_retransmit/3, handle_answer/4, handle_error/4, handle_request/3]).

-record(diameter_packet, {header, avps, msg, bin, errors = [], transport_data}).
-define(HOST, "otp.example.com").
-define(REALM, "example.com").
-define(LOOPBACK, {127, 0, 0, 1}).

main([Role, Port]) ->
    {ok, _} = application:ensure_all_started(diameter),
    diameter:subscribe(node),
    ok = diameter:start_service(node, service()),
    {ok, _} = diameter:add_transport(node, transport(Role, list_to_integer(Port))),
    Node = self(),
    spawn_link(fun() -> read_orders(Node) end),
    io:format("ready~n"),
    loop().

service() ->
    [{'Origin-Host', ?HOST}, {'Origin-Realm', ?REALM}, {'Vendor-Id', 0}, {'Product-Name', "OTP"},
     {'Host-IP-Address', [?LOOPBACK]}, {'Acct-Application-Id', [3]},
     {decode_format, map}, {string_decode, false}, {strict_arities, decode},
     {application, [{alias, base}, {dictionary, diameter_gen_base_rfc6733}, {module, ?MODULE}]},
     {application, [{alias, accounting}, {dictionary, diameter_gen_acct_rfc6733}, {module, ?MODULE}]}].

transport("listen", Port) ->
    {listen, [{transport_module, diameter_tcp}, {transport_config, [{ip, ?LOOPBACK}, {port, Port}, {reuseaddr, true}]} | timers()]};
transport("connect", Port) ->
    {connect, [{transport_module, diameter_tcp}, {transport_config, [{raddr, ?LOOPBACK}, {rport, Port}]}, {connect_timer, 60000} | timers()]}.

timers() ->
    [{watchdog_timer, 6000}].

read_orders(Node) ->
    case io:get_line("") of
        eof -> Node ! {order, "stop"};
        Line -> Node ! {order, string:trim(Line)}, read_orders(Node)
    end.

loop() ->
    receive
        {diameter_event, node, Event} ->
            say_event(Event),
            loop();
        {order, "broken"} ->
            say_answer(diameter:call(node, accounting, ['ACR' | broken()])),
            loop();
        {order, "stop"} ->
            diameter:stop_service(node),
            io:format("stopped~n"),
            halt(0)
    end.

say_event({watchdog, _, _, {From, To}, _}) -> io:format("watchdog ~p ~p~n", [From, To]);
say_event(Event) when is_tuple(Event) -> io:format("~p~n", [element(1, Event)]);
say_event(Event) -> io:format("~p~n", [Event]).

say_answer({Name, #{'Result-Code' := Code} = Avps}) ->
    io:format("answer ~0p ~p ~0p~n", [Name, Code, maps:get('Failed-AVP', Avps, none)]);
say_answer(Other) ->
    io:format("no answer ~0p~n", [Other]).

%% Without strict arities a list would be several AVPs.
broken() ->
    [Host, Realm] = [list_to_binary(Name) || Name <- [?HOST, ?REALM]],
    #{'Session-Id' => iolist_to_binary(diameter:session_id(?HOST)), 'Origin-Host' => Host, 'Origin-Realm' => Realm,
      'Destination-Realm' => Realm, 'Accounting-Record-Type' => 1, 'Acct-Application-Id' => 3}.

peer_up(_, _, State) -> State.
peer_down(_, _, State) -> State.
pick_peer([Peer | _], _, _, _) -> {ok, Peer};
pick_peer([], _, _, _) -> false.
prepare_request(#diameter_packet{msg = Message}, _, _) -> {send, Message}.
prepare_retransmit(Packet, _, _) -> {send, Packet}.
handle_answer(#diameter_packet{msg = [Name | Avps], errors = Errors}, _, _, _) when Errors == [] -> {Name, Avps};
handle_answer(#diameter_packet{errors = Errors}, _, _, _) -> {errors, Errors}.
handle_error(Reason, _, _, _) -> {error, Reason}.
handle_request(_, _, _) -> {protocol_error, 3001}.
